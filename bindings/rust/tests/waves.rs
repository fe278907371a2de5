//! Imports the sound files that other programs wrote (`data/wave`, whose README describes each), and
//! exports what they hold to the same bytes.
use std::fs;
use wavpack_stereo::{MAX_ELEMENTS, MAX_RATE, MAX_WAVE_BYTES, Refusal, Wave, wave_export, wave_import};

const FOLDER: &str = concat!(env!("CARGO_MANIFEST_DIR"), "/tests/data/wave");

/// What the files that are accepted hold, from the first sample on.
const SAMPLES: [i32; 8] = [3, -1, 256, -256, 32_767, -32_768, 0, 12_345];

const fn accepted(rate: u32, written: usize) -> Result<Wave, Refusal> {
    Ok(Wave { rate, written })
}

const REFUSED: Result<Wave, Refusal> = Err(Refusal::NotWave);

/// Every stored file, by its name, and what import answers.
const FILES: [(&str, Result<Wave, Refusal>); 27] = [
    ("byte_over.wav", REFUSED),
    ("byte_rate.wav", REFUSED),
    ("bytes_behind.wav", REFUSED),
    ("cut.wav", REFUSED),
    ("data_length.wav", REFUSED),
    ("eight_bits.wav", REFUSED),
    ("empty.wav", accepted(44_100, 0)),
    ("extensible.wav", REFUSED),
    ("extensible_24_bits.wav", REFUSED),
    ("fastest.wav", accepted(192_000, 8)),
    ("floats.wav", REFUSED),
    ("frame_missing.wav", REFUSED),
    ("half_frame.wav", REFUSED),
    ("list_before.wav", REFUSED),
    ("list_behind.wav", REFUSED),
    ("mono.wav", REFUSED),
    ("piped.wav", REFUSED),
    ("python.wav", accepted(44_100, 8)),
    ("rate_0.wav", REFUSED),
    ("rate_192001.wav", REFUSED),
    ("riff_length.wav", REFUSED),
    ("rifx.wav", REFUSED),
    ("slowest.wav", accepted(1, 2)),
    ("sox.wav", accepted(48_000, 8)),
    ("three_channels.wav", REFUSED),
    ("twenty_four_bits.wav", REFUSED),
    ("u_law.wav", REFUSED),
];

#[test]
fn every_stored_file_has_its_answer_here() {
    let entries = fs::read_dir(FOLDER).expect("the stored files").map(|entry| entry.unwrap().file_name());
    let mut names: Vec<String> = entries.map(|name| name.into_string().unwrap()).collect();
    names.retain(|name| name.ends_with(".wav"));
    names.sort();
    assert_eq!(names, FILES.map(|(name, _)| name));
}

#[test]
fn stored_files() {
    for (name, answer) in FILES {
        let file = fs::read(format!("{FOLDER}/{name}")).expect(name);
        let mut samples = [77; 9];
        assert_eq!(wave_import(&file, &mut samples), answer, "{name}");
        let (imported, after) = samples.split_at(answer.map_or(0, |wave| wave.written));
        assert_eq!(imported, &SAMPLES[..imported.len()], "{name}");
        assert!(after.iter().all(|&sample| sample == 77), "{name}");
        if let Ok(wave) = answer {
            let mut again = vec![77; file.len() + 1];
            assert_eq!(wave_export(wave.rate, imported, &mut again), Ok(file.len()), "{name}");
            assert_eq!(again.split_last(), Some((&77, &file[..])), "{name}");
        }
    }
}

#[test]
fn the_largest_file_comes_back() -> Result<(), Refusal> {
    let samples: Vec<i32> = (i16::MIN..=i16::MAX).map(i32::from).cycle().take(MAX_ELEMENTS).collect();
    let (mut file, mut back) = (vec![0; MAX_WAVE_BYTES], vec![0; MAX_ELEMENTS]);
    assert_eq!(wave_export(MAX_RATE, &samples, &mut file)?, MAX_WAVE_BYTES);
    assert_eq!(wave_import(&file, &mut back)?, Wave { rate: MAX_RATE, written: MAX_ELEMENTS });
    assert!(back == samples);
    Ok(())
}
