//! Buffers cut on eights (rows Q10.1 to Q10.5 of docs/PROVED.md): a buffer decorrelated part by part, each
//! call with the passes as the one before left them, comes to what one call leaves, in samples and in all
//! pass states, where every cut falls after a multiple of eight frames; for lists without a fixed lag, after
//! any whole frame. So does analysis. Random lists, and buffers cut after every frame.
mod pass_lists;
mod random;

use pass_lists::{Call, Left, parts, refused};
use random::Random;
use std::iter::repeat_with;
use wavpack_stereo::{Delta, MAX_ELEMENTS, MAX_PASSES, Pass, Refusal, Weight, analyse, decorrelate};

/// How many random lists go over buffers that are cut.
const LISTS: usize = 4_000;

/// The elements of a frame, of eight, and of a screen of 1,024.
const FRAME: usize = 2;
const EIGHT: usize = 8 * FRAME;
const SCREEN: usize = 1_024 * FRAME;

const CALLS: [Call; 2] = [decorrelate, analyse];

fn has_lag(pass: &Pass) -> bool {
    (1..=8).contains(&pass.term())
}

/// After multiples of how many elements a buffer may be cut.
fn step(list: &[Pass]) -> usize {
    if list.iter().any(has_lag) { EIGHT } else { FRAME }
}

impl Random {
    /// A list of passes, every third one without a fixed lag.
    fn list(&mut self, round: usize) -> Vec<Pass> {
        let count = round % (MAX_PASSES + 1);
        if round % 3 != 0 {
            return self.passes(count);
        }
        repeat_with(|| self.pass()).filter(|pass| !has_lag(pass)).take(count).collect()
    }

    /// Up to six places after multiples of `step` elements; where two are the same the part is empty.
    fn cuts(&mut self, length: usize, step: usize) -> Vec<usize> {
        let place = |random: &mut Random| step * random.below(length / step + 1);
        let mut cuts: Vec<usize> = (0..self.below(7)).map(|_| place(self)).collect();
        cuts.sort_unstable();
        cuts
    }
}

/// A buffer cut at these places, each part in a call of its own; without a cut it is one call.
fn in_parts(call: Call, list: &[Pass], cuts: impl IntoIterator<Item = usize>, buffer: &[i32]) -> Left {
    let (mut list, mut buffer) = (list.to_vec(), buffer.to_vec());
    for part in parts(buffer.len(), cuts) {
        call(&mut list, &mut buffer[part])?;
    }
    Ok((list, buffer))
}

/// Equal parts of this size; the last one is what is left.
fn by_size(call: Call, list: &[Pass], size: usize, buffer: &[i32]) -> Left {
    in_parts(call, list, (size..buffer.len()).step_by(size), buffer)
}

/// An odd last element keeps its value and moves no pass on: without it the call leaves the rest.
fn odd_last_stays(call: Call, list: &[Pass], buffer: &[i32], whole: &(Vec<Pass>, Vec<i32>)) {
    let even = buffer.len() - buffer.len() % FRAME;
    let (passes, mut turned) = in_parts(call, list, [], &buffer[..even]).unwrap();
    turned.extend(&buffer[even..]);
    assert_eq!(&(passes, turned), whole, "{list:?} over {buffer:?}");
}

#[test]
fn random_buffers_cut_after_every_frame() -> Result<(), Refusal> {
    let mut random = Random(20_261_126);
    let (mut cuts_off_eights, mut shows) = (0, 0);
    for round in 0..LISTS {
        let list = random.list(round);
        let length = random.below(80);
        let buffer = random.numbers(length);
        for call in CALLS {
            let whole = in_parts(call, &list, [], &buffer)?;
            odd_last_stays(call, &list, &buffer, &whole);
            for cut in (0..length).step_by(FRAME).chain([length]) {
                let apart = in_parts(call, &list, [cut], &buffer)?;
                // A part without a frame changes nothing, so that a cut before it never shows.
                if cut % step(&list) == 0 || length - cut < FRAME {
                    assert_eq!(apart, whole, "{list:?} over {buffer:?} cut at {cut}");
                } else {
                    cuts_off_eights += 1;
                    shows += usize::from(apart.1 != whole.1);
                }
            }
        }
    }
    // It is the eights that make them equal: with a fixed lag other cuts mostly give other samples.
    assert!(shows > cuts_off_eights / 2, "{shows} of {cuts_off_eights} cuts off the eights show");
    Ok(())
}

#[test]
fn random_buffers_in_many_parts() -> Result<(), Refusal> {
    let mut random = Random(20_261_127);
    for round in 0..LISTS {
        let list = random.list(round);
        let (length, step) = (random.below(200), step(&list));
        let (buffer, cuts) = (random.numbers(length), random.cuts(length, step));
        for call in CALLS {
            let whole = in_parts(call, &list, [], &buffer)?;
            let apart = in_parts(call, &list, cuts.iter().copied(), &buffer)?;
            assert_eq!(apart, whole, "{list:?} over {buffer:?} cut at {cuts:?}");
            assert_eq!(by_size(call, &list, step, &buffer)?, whole, "{list:?} over {buffer:?}");
        }
    }
    Ok(())
}

#[test]
fn largest_buffers() -> Result<(), Refusal> {
    let mut random = Random(6);
    let buffer = random.numbers(MAX_ELEMENTS);
    for buffer in [&buffer[..], &buffer[1..]] {
        let list = random.passes(MAX_PASSES);
        for call in CALLS {
            let whole = in_parts(call, &list, [], buffer)?;
            for cut in [0, EIGHT, MAX_ELEMENTS / 2, MAX_ELEMENTS - EIGHT, buffer.len()] {
                assert!(in_parts(call, &list, [cut], buffer)? == whole, "cut at {cut}");
            }
            for size in [EIGHT, SCREEN] {
                assert!(by_size(call, &list, size, buffer)? == whole, "parts of {size}");
            }
        }
    }
    Ok(())
}

#[test]
fn recordings_longer_than_a_call() -> Result<(), Refusal> {
    let mut random = Random(7);
    for (count, over) in [(1, 1), (3, 34), (5, MAX_ELEMENTS + 1_001), (MAX_PASSES, 70_000)] {
        let (list, length) = (random.passes(count), MAX_ELEMENTS + over);
        let recording = random.numbers(length);
        for call in CALLS {
            assert_eq!(refused(call, &list, &recording), Refusal::TooLarge);
            let screens = by_size(call, &list, SCREEN, &recording)?;
            for size in [EIGHT, 3 * EIGHT, SCREEN + EIGHT, MAX_ELEMENTS / 2, MAX_ELEMENTS] {
                assert!(by_size(call, &list, size, &recording)? == screens, "{length} by {size}");
            }
            // Up to six cuts, and as many more as make every part one that a call accepts.
            let mut cuts = random.cuts(length, EIGHT);
            cuts.extend((MAX_ELEMENTS..length).step_by(MAX_ELEMENTS));
            cuts.sort_unstable();
            assert!(in_parts(call, &list, cuts, &recording)? == screens, "{length} in parts");
        }
        let (there, samples) = by_size(decorrelate, &list, SCREEN, &recording)?;
        let back = by_size(analyse, &list, MAX_ELEMENTS, &samples)?;
        assert!(back == (there, recording), "{length} there by screens, and back");
    }
    Ok(())
}

#[test]
fn a_refused_list_is_refused_over_each_part() {
    let mut random = Random(8);
    let buffer = random.numbers(37);
    let mut lists = vec![(random.passes(MAX_PASSES + 1), Refusal::TooManyPasses)];
    for place in 0..MAX_PASSES {
        let mut list = random.passes(MAX_PASSES);
        list[place] = Pass::from_slots([9; Pass::SLOTS]);
        lists.push((list, Refusal::InvalidTerm));
    }
    for (list, refusal) in lists {
        for call in CALLS {
            assert_eq!(refused(call, &list, &buffer), refusal);
            for part in (0..=buffer.len()).flat_map(|cut| parts(buffer.len(), [cut])) {
                assert_eq!(refused(call, &list, &buffer[part]), refusal);
            }
        }
    }
}

/// Residuals that are all 1: with lag 3, say, three frames are 1, the next three 2. Every lag needs all
/// eight frames before a cut, not just as many as itself.
#[test]
fn every_lag_needs_eight_frames() -> Result<(), Refusal> {
    for lag in 1..=8 {
        let list = [Pass::new(lag, Delta(0), [Weight(1024); 2], [&[], &[]])?];
        let residuals = [1; 2 * EIGHT];
        let samples = std::array::from_fn(|place| 1 + (place / FRAME) as i32 / lag);
        let ways: [(Call, _, _); 2] = [(decorrelate, residuals, samples), (analyse, samples, residuals)];
        for (call, from, to) in ways {
            assert_eq!(in_parts(call, &list, [], &from)?.1, to, "lag {lag} in one call");
            for frames in 1..=8 {
                let same = in_parts(call, &list, [FRAME * frames], &from)?.1 == to;
                assert_eq!(same, frames == 8, "lag {lag}, cut after {frames} frames");
            }
        }
    }
    Ok(())
}
