//! Sound files between these bindings and two other programs, Python's `wave` and `sox`, both ways.
//! It needs both programs and is run by hand: docs/TESTING.md has the command.
use std::fs;
use std::process::Command;
use wavpack_stereo::{MAX_FRAMES, MAX_RATE, WAVE_HEADER_BYTES, Wave, wave_export, wave_import};

const FOLDER: &str = env!("CARGO_TARGET_TMPDIR");
const RATES: [u32; 5] = [1, 8_000, 44_100, 48_000, MAX_RATE];
const FRAMES: [usize; 3] = [0, 1, MAX_FRAMES];

const PYTHON_READS: &str = "
import sys, wave
with wave.open(sys.argv[1]) as sound, open(sys.argv[2], 'wb') as raw:
    print(*sound.getparams()[:4])
    raw.write(sound.readframes(sound.getnframes()))
";
const PYTHON_WRITES: &str = "
import sys, wave
with open(sys.argv[1], 'rb') as raw, wave.open(sys.argv[2], 'wb') as sound:
    sound.setparams((2, 2, int(sys.argv[3]), 0, 'NONE', ''))
    sound.writeframes(raw.read())
";

/// Runs a program in the folder, and gives what it printed.
fn run(program: &str, words: &[&str]) -> String {
    let output = Command::new(program).args(words).current_dir(FOLDER).output().expect(program);
    assert!(output.status.success(), "{program} {words:?}: {}", String::from_utf8_lossy(&output.stderr));
    String::from_utf8(output.stdout).unwrap().trim_end().to_owned()
}

/// The bytes of a file in the folder, which is then gone.
fn written(name: &str) -> Vec<u8> {
    let name = format!("{FOLDER}/{name}");
    let bytes = fs::read(&name).unwrap();
    fs::remove_file(&name).unwrap();
    bytes
}

/// Numbers over the whole span.
fn sound(frames: usize) -> Vec<i32> {
    (0..2 * frames as u32).map(|i| i32::from((i.wrapping_mul(2_654_435_769) >> 16) as i16)).collect()
}

/// Both programs read our file: its form, rate and frames, and each sample.
fn others_read(rate: u32, frames: usize, file: &[u8]) {
    fs::write(format!("{FOLDER}/ours.wav"), file).unwrap();
    assert_eq!(
        run("python3", &["-c", PYTHON_READS, "ours.wav", "python.raw"]),
        format!("2 2 {rate} {frames}")
    );
    assert_eq!(written("python.raw"), file[WAVE_HEADER_BYTES..]);
    let shown = ["-t", "-c", "-b", "-r", "-s", "-e"].map(|field| run("soxi", &[field, "ours.wav"]));
    assert_eq!(shown.join(" "), format!("wav 2 16 {rate} {frames} Signed Integer PCM"));
    run("sox", &["ours.wav", "-t", "raw", "sox.raw"]);
    assert_eq!(written("sox.raw"), file[WAVE_HEADER_BYTES..]);
}

/// Both programs write the same samples: to the bytes of our file, which import accepts.
fn others_write(rate: u32, samples: &[i32], file: &[u8]) {
    fs::write(format!("{FOLDER}/ours.raw"), &file[WAVE_HEADER_BYTES..]).unwrap();
    let rate_word = rate.to_string();
    run("python3", &["-c", PYTHON_WRITES, "ours.raw", "python.wav", &rate_word]);
    run(
        "sox",
        &["-t", "raw", "-r", &rate_word, "-e", "signed", "-b", "16", "-c", "2", "ours.raw", "sox.wav"],
    );
    for name in ["python.wav", "sox.wav"] {
        let theirs = written(name);
        let mut back = vec![0; samples.len()];
        assert_eq!(wave_import(&theirs, &mut back), Ok(Wave { rate, written: samples.len() }), "{name}");
        assert!(back == samples && theirs == file, "{name}");
    }
}

#[test]
#[ignore = "needs python3 and sox"]
fn files_of_other_programs() {
    println!("{}, {}", run("python3", &["--version"]), run("sox", &["--version"]));
    for (rate, frames) in RATES.into_iter().flat_map(|rate| FRAMES.map(|frames| (rate, frames))) {
        let samples = sound(frames);
        let mut file = vec![0; WAVE_HEADER_BYTES + 2 * samples.len()];
        assert_eq!(wave_export(rate, &samples, &mut file), Ok(file.len()));
        others_read(rate, frames, &file);
        others_write(rate, &samples, &file);
        println!("{frames} frames at {rate} a second: read and written alike by both");
    }
}
