//! Prints the clicks of a stereo stem recording, the frame, the stem and the height of each, and then
//! its morning page. It stops where the page has another number of clicks of a block and a stem than
//! it printed.
//!
//! `clicks` makes a recording with clicks, writes it (analysis, packing), decodes the written bytes
//! and prints the clicks that it finds; it stops where they are not the ones that were put in.
//!
//! `clicks FILE THRESHOLD` prints the clicks of a recording as the program `wvpair` reads it: 12
//! entropy bytes, the frame count in 2 bytes, the low one first, and the payload. A click is a sample
//! whose distance from 0 exceeds the threshold while that of the same stem's sample before it did
//! not; before the first sample the distance is 0.
mod recording;

use recording::Recording;
use std::error::Error;
use std::fmt;
use wavpack_stereo::{
    BYTES_PER_FRAME, LINE_FRAMES, Pass, Refusal, analyse, log_word, morning_page, pack, page_bytes,
};
use wavpack_stereo::{term_byte, weight_byte};

/// What a file holds of a pass: the term byte, and for each channel a weight byte and seeds as log
/// words.
struct StoredPass {
    term: u8,
    weights: [u8; 2],
    seeds: [&'static [i16]; 2],
}

const STEMS: [&str; 2] = ["left", "right"];

#[derive(Clone, Copy, Debug, PartialEq, Eq)]
struct Click {
    frame: usize,
    /// Its place in `STEMS`.
    stem: usize,
    height: i32,
}

impl fmt::Display for Click {
    fn fmt(&self, f: &mut fmt::Formatter<'_>) -> fmt::Result {
        write!(f, "frame {}, {} stem, height {}", self.frame, STEMS[self.stem], self.height)
    }
}

/// The clicks of both stems, left and right in turn.
fn clicks(samples: &[i32], threshold: u32) -> Vec<Click> {
    let mut was_loud = [false; 2];
    let mut found = Vec::new();
    for (i, &height) in samples.iter().enumerate() {
        let (frame, stem) = (i / 2, i % 2);
        let is_loud = height.unsigned_abs() > threshold;
        if is_loud && !was_loud[stem] {
            found.push(Click { frame, stem, height });
        }
        was_loud[stem] = is_loud;
    }
    found
}

/// The morning page of the samples.
fn page(samples: &[i32], threshold: u32) -> Result<String, Box<dyn Error>> {
    let mut page = vec![0; page_bytes(samples.len() / 2)];
    let written = morning_page(samples, threshold, &mut page)?;
    assert_eq!(written, page.len(), "another length than was lent");
    Ok(String::from_utf8(page)?)
}

/// Whether each block of the page has as many clicks of each stem as were found in it.
fn counts_agree(page: &str, found: &[Click]) -> Result<(), String> {
    for (block, line) in page.lines().enumerate() {
        for (stem, name) in STEMS.iter().enumerate() {
            let is_here = |click: &&Click| click.stem == stem && click.frame / LINE_FRAMES == block;
            let here = found.iter().filter(is_here).count();
            let shown = line.split_whitespace().nth(3 + stem).unwrap_or("nothing");
            if shown != here.to_string() {
                return Err(format!(
                    "clicks of block {block}, {name} stem: {here} found, {shown} on the page"
                ));
            }
        }
    }
    Ok(())
}

/// Prints the clicks and then the page, and gives the clicks.
fn print(samples: &[i32], threshold: u32) -> Result<Vec<Click>, Box<dyn Error>> {
    let found = clicks(samples, threshold);
    for click in &found {
        println!("{click}");
    }
    let page = page(samples, threshold)?;
    print!("{page}");
    counts_agree(&page, &found)?;
    Ok(found)
}

fn make_passes(stored: &[StoredPass]) -> Result<Vec<Pass>, Refusal> {
    let make = |pass: &StoredPass| {
        let stored = term_byte(pass.term);
        let values = |words: &[i16]| words.iter().copied().map(log_word).collect::<Result<Vec<_>, _>>();
        let [seed_a, seed_b] = pass.seeds.map(values);
        Pass::new(stored.term, stored.delta, pass.weights.map(weight_byte), [&seed_a?, &seed_b?])
    };
    stored.iter().map(make).collect()
}

/// The recording that decodes to these samples.
fn write(mut samples: Vec<i32>, entropy: [u8; 12], passes: &mut [Pass]) -> Result<Recording, Refusal> {
    let frames = samples.len() / 2;
    analyse(passes, &mut samples)?;
    let mut payload = vec![0; BYTES_PER_FRAME * frames];
    let packed = pack(&samples, &entropy, frames, &mut payload)?;
    payload.truncate(packed.bytes());
    Ok(Recording { entropy, frames, payload })
}

/// A noise floor with these clicks, each of which rings on.
fn sound(frames: usize, clicks: &[Click]) -> Vec<i32> {
    let mut noise = 1u32;
    let mut floor = || {
        noise = noise.wrapping_mul(1_664_525).wrapping_add(1_013_904_223);
        (noise >> 28) as i32 - 8
    };
    let mut samples: Vec<i32> = (0..2 * frames).map(|_| floor()).collect();
    for click in clicks {
        let mut height = click.height;
        for sample in samples[2 * click.frame + click.stem..].iter_mut().step_by(2).take(12) {
            *sample = height;
            height = -height * 3 / 4;
        }
    }
    samples
}

fn write_and_decode() -> Result<(), Box<dyn Error>> {
    // The fourth rings on over the edge of a block, at frame 1,024, which makes no second click.
    let put_in = [(120, 0, 9000), (455, 1, -7000), (457, 0, 5000), (1022, 1, 30_000), (1999, 0, -2001)];
    let put_in = put_in.map(|(frame, stem, height)| Click { frame, stem, height });
    let samples = sound(2000, &put_in);
    // Medians of 16 for noise within 8, and the terms 18, 17 and 2 with deltas of 2.
    let entropy = [0, 5].repeat(6).try_into().expect("12 bytes");
    let pass = |term, weights, seeds| StoredPass { term, weights, seeds };
    let passes = make_passes(&[
        pass(0x57, [24, 24], [&[300, -300], &[512, 0]]),
        pass(0x56, [0xf8, 8], [&[], &[]]),
        pass(0x47, [3, 0xfd], [&[], &[]]),
    ])?;
    let recording = write(samples.clone(), entropy, &mut passes.clone())?;
    let (decoded, outcome) = recording.decode(&mut passes.clone())?;
    assert!(outcome.is_ok() && decoded == samples, "the recording does not come back");
    let found = print(&decoded, 2000)?;
    assert_eq!(found, put_in, "other clicks than were put in");
    println!("{} clicks in {} frames, {} bytes", found.len(), recording.frames, recording.payload.len());
    Ok(())
}

/// A file for `wvpair` has no passes.
fn decode_file(name: &str, threshold: u32) -> Result<(), Box<dyn Error>> {
    let (samples, outcome) = Recording::open(name)?.decode(&mut [])?;
    print(&samples, threshold)?;
    match outcome {
        Ok(_) => Ok(()),
        Err(error) => Err(format!("ended after {} frames: {}", samples.len() / 2, error.refusal).into()),
    }
}

fn main() -> Result<(), Box<dyn Error>> {
    let words: Vec<String> = std::env::args().skip(1).collect();
    match words.as_slice() {
        [] => write_and_decode(),
        [file, threshold] => decode_file(file, threshold.parse()?),
        _ => Err("usage: clicks | clicks FILE THRESHOLD".into()),
    }
}
