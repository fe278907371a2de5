//! Writes a stereo stem recording as a sound file for audio editors: `sound_file FILE RATE OUT`
//!
//! FILE is a recording as the program `wvpair` reads it: 12 entropy bytes, the frame count in 2
//! bytes, the low one first, and the payload. RATE is the number of frames a second, and OUT the
//! name of the sound file. Where the recording cannot be exported it says why, writes no file and
//! has the exit status 1.
mod recording;

use recording::Recording;
use std::error::Error;
use std::fmt::Display;
use std::process::ExitCode;
use wavpack_stereo::{MAX_RATE, Refusal, WAVE_HEADER_BYTES, Wave, wave_export, wave_import};

/// The samples of the recording in a file, if all are there.
fn samples_in(name: &str) -> Result<Vec<i32>, Box<dyn Error>> {
    let recording = Recording::open(name)?;
    match recording.decode(&mut [])? {
        (samples, Ok(_)) => Ok(samples),
        (samples, Err(error)) => {
            let (read, all, why) = (samples.len() / 2, recording.frames, error.refusal);
            Err(format!("the reading ended after {read} of {all} frames: {why}").into())
        }
    }
}

fn no_rate(rate: impl Display) -> String {
    format!("a rate of {rate} is no whole number from 1 to {MAX_RATE}")
}

/// Why export refused, in words.
fn why(refusal: Refusal, rate: u32, samples: &[i32]) -> String {
    let wide = samples.iter().position(|&sample| i16::try_from(sample).is_err());
    match (refusal, wide) {
        (Refusal::NotWave, _) => no_rate(rate),
        (Refusal::SampleOutOfSpan, Some(at)) => {
            let (frame, stem) = (at / 2, ["left", "right"][at % 2]);
            format!("frame {frame}, {stem} stem, has {}, which does not fit 16 bits", samples[at])
        }
        _ => refusal.to_string(),
    }
}

/// The bytes of a sound file, from which rate and samples come back.
fn exported(rate: u32, samples: &[i32]) -> Result<Vec<u8>, String> {
    let mut file = vec![0; WAVE_HEADER_BYTES + 2 * samples.len()];
    let written = wave_export(rate, samples, &mut file).map_err(|refusal| why(refusal, rate, samples))?;
    assert_eq!(written, file.len(), "another length than was lent");
    let mut back = vec![0; samples.len()];
    assert_eq!(
        wave_import(&file, &mut back),
        Ok(Wave { rate, written: samples.len() }),
        "the file is not read back"
    );
    assert!(back == samples, "the samples do not come back");
    Ok(file)
}

fn export(name: &str, rate: &str, out: &str) -> Result<(), Box<dyn Error>> {
    let rate = rate.parse().map_err(|_| no_rate(rate))?;
    let samples = samples_in(name)?;
    let file = exported(rate, &samples)?;
    std::fs::write(out, &file).map_err(|error| format!("{out}: {error}"))?;
    println!("{out}: {} frames, {rate} a second, {} bytes", samples.len() / 2, file.len());
    Ok(())
}

fn main() -> ExitCode {
    let words: Vec<String> = std::env::args().skip(1).collect();
    let done = match words.as_slice() {
        [file, rate, out] => export(file, rate, out).map_err(|why| format!("{file} is not exported: {why}")),
        _ => Err("usage: sound_file FILE RATE OUT".into()),
    };
    match done {
        Ok(()) => ExitCode::SUCCESS,
        Err(said) => {
            eprintln!("{said}");
            ExitCode::FAILURE
        }
    }
}
