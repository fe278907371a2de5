//! Runs the proved library and the published Rust side by side.
//!
//! `compare` compares them on every kind of input. `compare SEED SCALE` does so with other random
//! inputs, SCALE times as many. The seed is printed; the same seed gives the same inputs. `compare
//! store` writes the answers of the published Rust that the program `replay` carries. `compare
//! bench` prints a table of both sides' speed, built with the feature `before` also that of an
//! earlier archive, and `compare count` makes one call, whose instructions a tool can count.
//! `compare long` runs millions of damaged inputs.
//!
//! Sound files, morning pages and archive files are no part of the published Rust: there a plain statement
//! of their rules stands for it, and in the table a plain loop. Wide samples are compared with both. A log
//! word that the Rust accepts and the rule refuses is left to the rule, and the inputs that hold one are
//! counted. So are the states of words whose totals exceed their place; the Rust has no totals, and the rule
//! states them beside it.
#![deny(unsafe_code)]
#![warn(clippy::undocumented_unsafe_blocks)]

mod archive_files;
mod bench;
mod case;
mod child;
mod fields;
mod guarded;
mod int32_fields;
mod kinds;
mod lent;
mod long;
mod numbers;
mod ours;
mod page_sounds;
mod payloads;
mod plain_int32;
mod random;
mod reach;
mod store;
mod their_archives;
mod their_int32;
mod their_packing;
mod their_pages;
mod their_passes;
mod their_waves;
mod theirs;
mod totals;
mod wave_headers;

use case::{Failed, Run};
use long::Bounds;
use std::process::ExitCode;
use std::str::FromStr;
use std::time::{Duration, Instant};

/// The seed of a run that names none.
const SEED: u64 = 20_261_115;

const USAGE: &str =
    "usage: compare [SEED [SCALE]] | compare long [SEED [MILLIONS [MINUTES]]] | compare store | compare bench
     | compare count ours|theirs reading|packing [loud|middling|quiet|clicks|many|silence]
     | compare count ours|theirs export|import
     | compare count ours|theirs archive write|read
     | compare count ours|theirs page [noise|random|silence]
     | compare count ours|theirs reassembly|deconstruction SENT_BITS none|zeros|ones|dups
     | compare count ours|theirs decorrelation|analysis TERM|sixteen";

fn compare(seed: u64, scale: usize) -> Result<(), Failed> {
    println!("compare: seed {seed}, scale {scale}");
    let mut total = 0;
    for (name, run_kind) in kinds::KINDS {
        let (began, mut run) = (Instant::now(), Run::new(seed, scale));
        run_kind(&mut run)?;
        total += run.report(name, began);
    }
    if let Some(name) = store::stale() {
        println!("DIFFERENCE crates/replay/data/{name} is not what `compare store` writes");
        return Err(Failed);
    }
    println!("compare: all {total} agree, and the stored answers still hold");
    Ok(())
}

/// The number at a place of the words, or what holds where there is none.
fn number<T: FromStr>(words: &[&str], place: usize, otherwise: T) -> Option<T> {
    words.get(place).map_or(Some(otherwise), |word| word.parse().ok())
}

/// Does what the words say; none where they say nothing that it knows.
fn run(words: &[&str]) -> Option<Result<(), Failed>> {
    match words {
        ["store"] => Some(store::write().map_err(|why| {
            eprintln!("compare: {why}");
            Failed
        })),
        ["bench"] => {
            bench::run(SEED);
            Some(Ok(()))
        }
        ["count", call @ ..] => bench::count::run(call, SEED).map(Ok),
        ["long", bounds @ ..] => {
            let (millions, minutes) = (number(bounds, 1, 10.0)?, number(bounds, 2, 60.0)?);
            let time = Duration::try_from_secs_f64(60.0 * minutes).ok()?;
            Some(long::run(&Bounds {
                seed: number(bounds, 0, SEED)?,
                cases: (1e6 * millions) as usize,
                time,
            }))
        }
        _ => Some(compare(number(words, 0, SEED)?, number(words, 1, 1)?)),
    }
}

fn main() -> ExitCode {
    let words: Vec<String> = std::env::args().skip(1).collect();
    let words: Vec<&str> = words.iter().map(String::as_str).collect();
    match run(&words) {
        Some(Ok(())) => ExitCode::SUCCESS,
        Some(Err(Failed)) => ExitCode::FAILURE,
        None => {
            eprintln!("{USAGE}");
            ExitCode::from(2)
        }
    }
}
