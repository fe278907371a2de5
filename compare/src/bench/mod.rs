//! The speed of the library and of the published Rust on the same inputs, in one run. Sound files,
//! morning pages and archive files are no part of the published Rust: there a plain loop stands for it.
//! Wide samples have both. With the feature `before` an earlier archive reads beside them.
//!
//! The sides take turns, and the best of all turns counts. Each turn starts from fresh copies,
//! which are made before the clock starts. The outputs are compared.
use crate::random::Random;
use crate::theirs::MAX_FRAMES;
use reading::Read;
use std::time::{Duration, Instant};
use words::Word;

mod archive_loops;
mod archives;
#[cfg(feature = "before")]
mod before;
pub mod count;
mod int32;
mod int32_loops;
mod packing;
mod pages;
mod passes;
mod reading;
mod waves;
mod words;

/// Reading by an earlier archive, where the program has one.
#[cfg(feature = "before")]
const BEFORE: Option<Read> = Some(before::read);
#[cfg(not(feature = "before"))]
const BEFORE: Option<Read> = None;

/// One word a call by it, and the slots of its state.
#[cfg(feature = "before")]
const BEFORE_WORD: Option<(Word, usize)> = Some((before::word, before::STATE));
#[cfg(not(feature = "before"))]
const BEFORE_WORD: Option<(Word, usize)> = None;

const TURNS: usize = 40;

/// A turn of one side: how long it took.
type Turn<'a> = &'a mut dyn FnMut() -> Duration;

/// Runs both in turn and prints a row of the table.
fn row(name: &str, mut ours: impl FnMut() -> Duration, mut theirs: impl FnMut() -> Duration) {
    row_of(name, TURNS, None, &mut ours, &mut theirs);
}

/// Runs the sides in turn and prints a row of the table: the best of each, and how many times as
/// fast ours is. The columns of an earlier archive stay empty where it takes no part.
fn row_of(name: &str, turns: usize, mut before: Option<Turn<'_>>, ours: Turn<'_>, theirs: Turn<'_>) {
    let mut best = [Duration::MAX; 3];
    for _ in 0..turns {
        let before = before.as_mut().map_or(Duration::MAX, |turn| turn());
        best = [best[0].min(before), best[1].min(ours()), best[2].min(theirs())];
    }
    let [earlier, ours, theirs] = best.map(|time| 1e3 * time.as_secs_f64());
    let (times, factor) = (format!("{ours:.3} | {theirs:.3}"), format!("{:.2}", theirs / ours));
    match (BEFORE, before) {
        (None, _) => println!("| {name} | {times} | {factor} |"),
        (Some(_), None) => println!("| {name} | | {times} | | {factor} |"),
        (Some(_), Some(_)) => {
            println!("| {name} | {earlier:.3} | {times} | {:.2} | {factor} |", earlier / ours)
        }
    }
}

fn timed<T>(work: impl FnOnce() -> T) -> (Duration, T) {
    let began = Instant::now();
    let answer = work();
    (began.elapsed(), answer)
}

pub fn run(seed: u64) {
    let few = archives::FEW_TURNS;
    println!("{MAX_FRAMES} frames, best of {TURNS} turns each, of large archive files {few}, milliseconds\n");
    match BEFORE {
        None => println!("| input | ours | the Rust | times as fast |\n|---|---:|---:|---:|"),
        Some(_) => {
            println!("| input | before | now | the Rust | times as fast as before | as the Rust |");
            println!("|---|---:|---:|---:|---:|---:|");
        }
    }
    let random = &mut Random::new(seed);
    let sounds = reading::sounds(random);
    reading::run(&sounds);
    words::run(&sounds);
    passes::run(random);
    packing::run(&sounds);
    waves::run(random);
    pages::run(random);
    int32::run(random);
    archives::run(random);
}
