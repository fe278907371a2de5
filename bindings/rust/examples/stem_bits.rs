//! Prints what each stem of a recording costs, in bits a sample and in all: `stem_bits FILE...`
//!
//! FILE is a `.wv` file, of which each block is printed and then the sum of its blocks, or a recording as
//! the program `wvpair` reads it: 12 entropy bytes, the frame count in 2 bytes, the low one first, and the
//! payload. A block in joint stereo holds the difference and the mean of the stems in place of left and
//! right, and is summed apart. The exit status is 1 where a file cannot be read, where any of its frames
//! are not read, and where it has none.
mod recording;
mod wv_block;

use recording::Recording;
use std::error::Error;
use std::process::ExitCode;
use wavpack_stereo::{ReadError, Reading, read};
use wv_block::samples::{JOINT, decode};
use wv_block::{Block, Why, parts, take_block};

/// What a block holds, and what it holds in joint stereo.
const CHANNELS: [[&str; 2]; 2] = [["left", "right"], ["difference", "mean"]];

/// The number of frames in a file that was written without knowing it.
const UNKNOWN: u32 = u32::MAX;

/// What the two channels of some readings cost.
fn cost([first, second]: [&str; 2], readings: &[Reading]) -> String {
    let of = |channel: usize| {
        let bits: u64 = readings.iter().map(|reading| u64::from(reading.bits_read[channel])).sum();
        // A reading that a word ended may have a sample more of the first channel.
        let samples: usize = readings.iter().map(|reading| (reading.written + 1 - channel) / 2).sum();
        format!("{:.2} bits a sample ({bits} in all)", bits as f64 / samples.max(1) as f64)
    };
    format!("{first} {}, {second} {}", of(0), of(1))
}

/// The reading of a block that decodes with the right checksums.
fn read_block(block: &Block<'_>) -> Result<Reading, Why> {
    let (mut samples, parts) = (decode(block)?, parts(block)?);
    read(parts.entropy, parts.payload, block.frames as usize, &mut samples)
        .map_err(|error| error.refusal.into())
}

/// Prints the blocks of a `.wv` file and their sums, and gives whether all its frames were read.
fn print_blocks(mut rest: &[u8]) -> bool {
    let (mut readings, mut total, mut whole) = (CHANNELS.map(|_| Vec::new()), None, true);
    while let Some(block) = take_block(&mut rest) {
        total.get_or_insert(block.total);
        if block.frames == 0 {
            continue;
        }
        print!("  {} frames from {} on: ", block.frames, block.first);
        match read_block(&block) {
            Ok(reading) => {
                let joint = usize::from(block.flags & JOINT != 0);
                println!("{}", cost(CHANNELS[joint], &[reading]));
                readings[joint].push(reading);
            }
            Err(why) => {
                println!("{why}");
                whole = false;
            }
        }
    }
    for (names, readings) in CHANNELS.into_iter().zip(&readings).filter(|(_, some)| !some.is_empty()) {
        let frames: usize = readings.iter().map(|reading| reading.written / 2).sum();
        println!("  {frames} frames: {}", cost(names, readings));
    }
    let frames: usize = readings.iter().flatten().map(|reading| reading.written / 2).sum();
    whole && frames > 0 && total.is_some_and(|total| total == UNKNOWN || total as usize == frames)
}

/// Prints a recording as `wvpair` reads it, which has no passes, and gives whether it is whole.
fn print_recording(recording: &Recording) -> Result<bool, Box<dyn Error>> {
    let (_, outcome) = recording.decode(&mut [])?;
    let (Ok(reading) | Err(ReadError { reading, .. })) = outcome;
    println!("  {} of {} frames: {}", reading.written / 2, recording.frames, cost(CHANNELS[0], &[reading]));
    if let Err(error) = outcome {
        println!("  ended: {}", error.refusal);
    }
    Ok(outcome.is_ok() && recording.frames > 0)
}

fn print(name: &str) -> Result<bool, Box<dyn Error>> {
    let file = std::fs::read(name)?;
    println!("{name}");
    if file.starts_with(b"wvpk") {
        return Ok(print_blocks(&file));
    }
    print_recording(&Recording::open(name)?)
}

fn main() -> ExitCode {
    let names: Vec<String> = std::env::args().skip(1).collect();
    let mut whole = !names.is_empty();
    if names.is_empty() {
        eprintln!("usage: stem_bits FILE...");
    }
    for name in names {
        whole &= print(&name).unwrap_or_else(|error| {
            eprintln!("{name}: {error}");
            false
        });
    }
    if whole { ExitCode::SUCCESS } else { ExitCode::FAILURE }
}
