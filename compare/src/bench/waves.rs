//! Export and import of the largest sound file. The Rust is a plain loop, written here; both sides
//! fill lent storage.
use super::{passes, row, timed};
use crate::random::Random;
use crate::their_waves::{self, HEADER, RATES, SPAN};
use std::time::Duration;
use wavpack_stereo::{wave_export, wave_import};

const RATE: u32 = 48_000;

/// The samples, noise of 16 bits, and their file.
pub fn input(random: &mut Random) -> (Vec<i32>, Vec<u8>) {
    let samples = passes::buffer(random);
    let file = their_waves::export(RATE, &samples, usize::MAX).unwrap();
    (samples, file)
}

fn header(rate: u32, data: u32) -> [u8; HEADER] {
    let mut out = *b"RIFF....WAVEfmt \x10\0\0\0\x01\0\x02\0........\x04\0\x10\0data....";
    for (at, number) in [(4, 36 + data), (24, rate), (28, 4 * rate), (40, data)] {
        out[at..at + 4].copy_from_slice(&number.to_le_bytes());
    }
    out
}

/// Export as a loop: every sample tested first, then header and samples.
fn loop_export(rate: u32, samples: &[i32], out: &mut [u8]) -> Option<usize> {
    let out = out.get_mut(..HEADER + 2 * samples.len())?;
    if !RATES.contains(&rate) || !samples.iter().all(|sample| SPAN.contains(sample)) {
        return None;
    }
    let (head, data) = out.split_at_mut(HEADER);
    head.copy_from_slice(&header(rate, data.len() as u32));
    for (bytes, &sample) in data.chunks_exact_mut(2).zip(samples) {
        bytes.copy_from_slice(&(sample as i16).to_le_bytes());
    }
    Some(out.len())
}

/// Import as a loop: the header compared with the one that its rate and the length ask for, then
/// the samples.
fn loop_import(file: &[u8], samples: &mut [i32]) -> Option<usize> {
    let (head, data) = file.split_at_checked(HEADER)?;
    let rate = u32::from_le_bytes(*head[24..].first_chunk()?);
    if !RATES.contains(&rate) || data.len() % 4 != 0 || head != header(rate, data.len() as u32) {
        return None;
    }
    let samples = samples.get_mut(..data.len() / 2)?;
    for (sample, bytes) in samples.iter_mut().zip(data.chunks_exact(2)) {
        *sample = i16::from_le_bytes([bytes[0], bytes[1]]).into();
    }
    Some(samples.len())
}

/// Export by either side: how many bytes it wrote.
pub fn export(ours: bool, samples: &[i32], out: &mut [u8]) -> Option<usize> {
    if ours { wave_export(RATE, samples, out).ok() } else { loop_export(RATE, samples, out) }
}

/// Import by either side: how many samples it wrote.
pub fn import(ours: bool, file: &[u8], samples: &mut [i32]) -> Option<usize> {
    if ours { wave_import(file, samples).ok().map(|wave| wave.written) } else { loop_import(file, samples) }
}

fn export_turn(ours: bool, samples: &[i32], file: &[u8], out: &mut [u8]) -> Duration {
    out.fill(0x5a);
    let (time, written) = timed(|| export(ours, samples, out));
    assert!(written == Some(file.len()) && out == file, "another file is exported");
    time
}

fn import_turn(ours: bool, file: &[u8], samples: &[i32], out: &mut [i32]) -> Duration {
    out.fill(0x5a);
    let (time, written) = timed(|| import(ours, file, out));
    assert!(written == Some(samples.len()) && out == samples, "other samples are imported");
    time
}

pub fn run(random: &mut Random) {
    let (samples, file) = input(random);
    let [mut ours, mut theirs] = [vec![0; file.len()], vec![0; file.len()]];
    row(
        "export of a sound file (the Rust: a range test, then a loop of `to_le_bytes`)",
        || export_turn(true, &samples, &file, &mut ours),
        || export_turn(false, &samples, &file, &mut theirs),
    );
    let [mut ours, mut theirs] = [vec![0; samples.len()], vec![0; samples.len()]];
    row(
        "import of a sound file (the Rust: the header compared, then a loop of `from_le_bytes`)",
        || import_turn(true, &file, &samples, &mut ours),
        || import_turn(false, &file, &samples, &mut theirs),
    );
}
