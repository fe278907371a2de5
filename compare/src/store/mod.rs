//! The stored answers of the published Rust, which the program `replay` holds the library to; for a
//! log word out of reach that of the rule.
//!
//! One file for each kind, in records of one length; numbers are little-endian.
//! `crates/replay/data/README.md` describes each record.
use std::path::PathBuf;
use std::{fs, io};

mod bytes;
mod packs;
mod passes;
mod words;

/// The seed of the inputs that are not exhaustive.
const SEED: u64 = 1;

/// A file: its name, and what it holds.
type File = (&'static str, fn() -> Records);

const FILES: [File; 9] = [
    ("log_words.bin", bytes::log_words),
    ("term_bytes.bin", bytes::term_bytes),
    ("weight_bytes.bin", bytes::weight_bytes),
    ("entropy.bin", bytes::entropy),
    ("words.bin", words::words),
    ("readings.bin", words::readings),
    ("pass_making.bin", passes::making),
    ("passes.bin", passes::runs),
    ("packings.bin", packs::packs),
];

/// Records as they are laid into a file.
#[derive(Default)]
struct Records(Vec<u8>);

impl Records {
    fn signed(&mut self, numbers: &[i32]) {
        self.0.extend(numbers.iter().flat_map(|number| number.to_le_bytes()));
    }

    fn numbers(&mut self, numbers: &[u32]) {
        self.0.extend(numbers.iter().flat_map(|number| number.to_le_bytes()));
    }

    /// Bytes, with zeros after them up to `room`.
    fn bytes(&mut self, bytes: &[u8], room: usize) {
        self.0.extend(bytes);
        self.0.extend(vec![0; room - bytes.len()]);
    }
}

fn folder() -> PathBuf {
    PathBuf::from(env!("CARGO_MANIFEST_DIR")).join("../crates/replay/data")
}

/// Writes every file anew.
pub fn write() -> io::Result<()> {
    fs::create_dir_all(folder())?;
    for (name, make) in FILES {
        fs::write(folder().join(name), make().0)?;
    }
    Ok(())
}

/// The name of the first file that does not hold what the Rust answers today, if there is one.
pub fn stale() -> Option<&'static str> {
    let differs = |name: &str, made: Records| fs::read(folder().join(name)).ok() != Some(made.0);
    FILES.iter().find(|(name, make)| differs(name, make())).map(|(name, _)| *name)
}
