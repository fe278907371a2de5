//! Damaged inputs by the million: payloads, states, pass lists, packings, sound files, recordings for
//! morning pages, wide samples and archive files that were real and then damaged, each answered as the
//! published Rust, or the rule, answers.
//!
//! Every list that is lent stands in turn right before a page that must not be touched, right
//! after such a page, and in a block of the heap of its own. A child compares, so that a stray
//! access ends the child; then the parent makes the same inputs again, finds the one that makes the
//! access, and shows the smallest one like it.
use crate::case::{Case, Failed, Run};
use crate::child::{self, Ended};
use crate::guarded;
use crate::lent::{Place, stand};
use crate::random::Random;
use recordings::Recordings;
use std::ops::Range;
use std::time::{Duration, Instant};

mod archives;
mod damage;
mod int32;
mod packs;
mod pages;
mod passes;
mod reads;
mod recordings;
mod waves;
mod words;

/// How much is run: the seed, how many inputs at most, and for how long at most.
pub struct Bounds {
    pub seed: u64,
    pub cases: usize,
    pub time: Duration,
}

/// A kind: its name, how many of 100 inputs are of it, and what makes and compares one.
type Kind = (&'static str, usize, fn(&mut Run, &Recordings) -> Result<(), Failed>);

const KINDS: [Kind; 13] = [
    ("damaged payloads, read whole", 30, |run, from| one(run, |random| reads::read(random, from))),
    ("damaged payloads and states, read by words", 20, |run, from| {
        one(run, |random| words::word(random, from))
    }),
    ("damaged entropy payloads", 4, |run, from| one(run, |random| reads::entropy(random, from))),
    ("damaged seeds", 3, |run, _| one(run, passes::making)),
    ("damaged pass lists", 8, |run, from| one(run, |random| passes::passes(random, from))),
    ("damaged packings", 13, |run, from| one(run, |random| packs::pack(random, from))),
    ("damaged exports of sound files", 3, |run, from| one(run, |random| waves::export(random, from))),
    ("damaged sound files", 5, |run, from| one(run, |random| waves::import(random, from))),
    ("morning pages of damaged recordings", 4, |run, from| one(run, |random| pages::page(random, from))),
    ("damaged reassembly of wide samples", 3, |run, from| one(run, |random| int32::reassembly(random, from))),
    ("damaged deconstruction of wide samples", 3, |run, from| {
        one(run, |random| int32::deconstruction(random, from))
    }),
    ("damaged recordings written as archive files", 1, |run, from| {
        one(run, |random| archives::write(random, from))
    }),
    ("damaged archive files", 3, |run, from| one(run, |random| archives::read(random, from))),
];

const PLACES: [Place; 3] = [Place::BeforePage, Place::AfterPage, Place::Block];

/// How many inputs are made from the same recordings, by one child.
const REUSED: usize = 10_000;

fn one<C: Case>(run: &mut Run, make: impl FnOnce(&mut Random) -> C) -> Result<(), Failed> {
    let case = make(&mut run.random);
    run.agree(case)
}

/// Makes and compares the inputs of a kind with these numbers.
fn compare(kind: &Kind, run: &mut Run, recordings: &Recordings, numbers: Range<usize>) -> Result<(), Failed> {
    for number in numbers {
        let place = PLACES[number % PLACES.len()];
        stand(place);
        let outcome = kind.2(run, recordings);
        stand(Place::Margins);
        outcome.inspect_err(|_| println!("  lists stood so: {place:?}"))?;
    }
    Ok(())
}

/// Does so in a child. Where a stray access ends it, each of the inputs is tried once more, by
/// itself.
fn compare_in_child(
    kind: &Kind,
    run: &mut Run,
    recordings: &Recordings,
    numbers: Range<usize>,
) -> Result<(), Failed> {
    let ended = child::ended(|| {
        compare(kind, run, recordings, numbers.clone()).ok()?;
        Some(run.progress())
    });
    match ended {
        Ended::Told(progress) => {
            run.go_on(&progress);
            return Ok(());
        }
        Ended::Stray => {
            run.set_apart();
            compare(kind, run, recordings, numbers.clone())?;
            println!("STRAY ACCESS in the inputs {numbers:?} of {}, but in none of them alone", kind.0);
        }
        Ended::Otherwise(how) => println!("FAILED {}, inputs {numbers:?}: {how}", kind.0),
    }
    Err(Failed)
}

fn run_kind(kind: &Kind, run: &mut Run, cases: usize, until: Instant) -> Result<(), Failed> {
    let mut from = 0;
    while from < cases && Instant::now() <= until {
        let recordings = Recordings::new(&mut run.random);
        // New recordings come with the inputs 9,999, 19,999 and so on.
        let to = ((from + 2).next_multiple_of(REUSED) - 1).min(cases);
        compare_in_child(kind, run, &recordings, from..to)?;
        from = to;
    }
    Ok(())
}

pub fn run(bounds: &Bounds) -> Result<(), Failed> {
    let Bounds { seed, cases, time } = *bounds;
    println!("compare long: seed {seed}, at most {cases} inputs, at most {} s", time.as_secs());
    if !guarded::holds() {
        println!("FAILED an access outside a list is not stopped");
        return Err(Failed);
    }
    let (all, mut total, mut shares) = (Instant::now(), 0, 0);
    for (number, kind) in KINDS.iter().enumerate() {
        shares += kind.1;
        let (began, mut run) = (Instant::now(), Run::new(seed.wrapping_add(number as u64), 1));
        // Each kind has its share of the time too, and what those before it left.
        run_kind(kind, &mut run, cases / 100 * kind.1, all + time * shares as u32 / 100)?;
        total += run.report(kind.0, began);
    }
    println!("compare long: all {total} agree ({:.1} s)", all.elapsed().as_secs_f64());
    Ok(())
}
