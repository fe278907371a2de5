//! Pass lists joined (rows Q4.1 to Q4.3 of docs/PROVED.md): decorrelating by one list and then by a
//! second is one call with the second appended to the first, in samples and in all pass states; in
//! analysis the second list is undone before the first. Random lists, each cut at every place.
mod pass_lists;
mod random;

use pass_lists::{Call, Left, parts, refused};
use random::Random;
use wavpack_stereo::{MAX_ELEMENTS, MAX_PASSES, Pass, Refusal, analyse, decorrelate};

/// How many random lists are cut.
const LISTS: usize = 4_000;

/// Decorrelation or analysis, and whether the last list's call comes first.
#[derive(Clone, Copy)]
struct Way {
    call: Call,
    last_first: bool,
}

const WAYS: [Way; 2] =
    [Way { call: decorrelate, last_first: false }, Way { call: analyse, last_first: true }];

/// A list cut at these places, each part in a call of its own; without a cut it is one call.
fn in_calls(way: Way, list: &[Pass], cuts: impl IntoIterator<Item = usize>, buffer: &[i32]) -> Left {
    let (mut list, mut buffer) = (list.to_vec(), buffer.to_vec());
    let mut parts = parts(list.len(), cuts);
    if way.last_first {
        parts.reverse();
    }
    for part in parts {
        (way.call)(&mut list[part], &mut buffer)?;
    }
    Ok((list, buffer))
}

#[test]
fn random_lists_cut_at_every_place() -> Result<(), Refusal> {
    let mut random = Random(20_261_116);
    let (mut cuts, mut order_shows) = (0, 0);
    for round in 0..LISTS {
        let list = random.passes(round % (MAX_PASSES + 1));
        let length = random.below(48);
        let buffer = random.numbers(length);
        for way in WAYS {
            let joined = in_calls(way, &list, [], &buffer)?;
            for cut in 0..=list.len() {
                let apart = in_calls(way, &list, [cut], &buffer)?;
                assert_eq!(apart, joined, "{list:?} cut at {cut}, over {buffer:?}");
                let other_order = Way { last_first: !way.last_first, ..way };
                cuts += 1;
                order_shows += usize::from(in_calls(other_order, &list, [cut], &buffer)? != joined);
            }
        }
    }
    // It is the order of the calls that makes them equal: the other one mostly gives something else.
    assert!(order_shows > cuts / 2, "the other order shows in {order_shows} of {cuts} cuts");
    Ok(())
}

#[test]
fn largest_buffers() -> Result<(), Refusal> {
    let mut random = Random(3);
    let list = random.passes(MAX_PASSES);
    let buffer = random.numbers(MAX_ELEMENTS);
    for buffer in [&buffer[..], &buffer[1..]] {
        for way in WAYS {
            let joined = in_calls(way, &list, [], buffer)?;
            for cut in [1, 5, 8, 15] {
                assert!(in_calls(way, &list, [cut], buffer)? == joined, "cut at {cut}");
            }
        }
    }
    Ok(())
}

#[test]
fn over_sixteen_together_only_two_calls_are_taken() -> Result<(), Refusal> {
    let mut random = Random(4);
    let buffer = random.numbers(41);
    for count in MAX_PASSES + 1..=2 * MAX_PASSES {
        let list = random.passes(count);
        for way in WAYS {
            assert_eq!(refused(way.call, &list, &buffer), Refusal::TooManyPasses);
            // Two calls leave what a call for each pass leaves.
            let one_by_one = in_calls(way, &list, 1..count, &buffer)?;
            for cut in count - MAX_PASSES..=MAX_PASSES {
                assert_eq!(in_calls(way, &list, [cut], &buffer)?, one_by_one, "{count} passes cut at {cut}");
            }
        }
    }
    Ok(())
}

#[test]
fn the_joined_call_is_refused_where_one_of_the_two_is() {
    let mut random = Random(5);
    let list = random.passes(9);
    let buffer = random.numbers(12);
    let too_long = vec![0; MAX_ELEMENTS + 1];
    for way in WAYS {
        for cut in 0..=list.len() {
            for place in 0..list.len() {
                let mut list = list.clone();
                list[place] = Pass::from_slots([9; Pass::SLOTS]);
                for cuts in [None, Some(cut)] {
                    assert_eq!(in_calls(way, &list, cuts, &buffer), Err(Refusal::InvalidTerm));
                }
            }
            for cuts in [None, Some(cut)] {
                assert_eq!(in_calls(way, &list, cuts, &too_long), Err(Refusal::TooLarge));
            }
        }
    }
}
