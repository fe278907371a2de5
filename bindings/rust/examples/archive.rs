//! Keeps packed recordings in an archive file:
//!
//! `archive FILE add HOUSE START ISSUE RECORDING` appends a recording; its payload is what the file
//! RECORDING holds, whatever that is. Where there is no FILE it makes one. A recording whose house, start
//! second and issue are in the archive already is not added.
//!
//! `archive FILE list` prints the recordings that are in force, in the order of the file.
//!
//! `archive FILE take HOUSE START OUT` writes the payload of the one in force to the file OUT.
//!
//! Of a damaged archive each of them says which block is bad and why. The exit status is 1 where nothing
//! was done.
mod archive_fault;

use archive_fault::fault;
use std::error::Error;
use std::fs::{self, OpenOptions};
use std::io::{self, ErrorKind, Write};
use std::process::ExitCode;
use std::str::FromStr;
use wavpack_stereo::{ARCHIVE_BLOCK_BYTES, ArchiveError, MAX_PAYLOAD_BYTES, Recording, Recordings, Refusal};
use wavpack_stereo::{archive_bytes, archive_read, archive_write};

const USAGE: &str = "archive FILE add HOUSE START ISSUE RECORDING
       archive FILE list
       archive FILE take HOUSE START OUT";

type Done = Result<(), Box<dyn Error>>;

/// Storage that is enough for what a file holds.
struct Storage {
    list: Vec<[u32; 4]>,
    payloads: Vec<u8>,
}

impl Storage {
    fn of(file: &[u8]) -> Storage {
        Storage { list: vec![[0; 4]; file.len() / ARCHIVE_BLOCK_BYTES], payloads: vec![0; file.len()] }
    }

    fn read(&mut self, file: &[u8]) -> Result<Recordings<'_>, ArchiveError> {
        archive_read(file, &mut self.list, &mut self.payloads)
    }
}

/// Why an archive is not read, in words.
fn why(error: ArchiveError, file: &[u8]) -> String {
    let Some(block) = error.bad_block else { return error.refusal.to_string() };
    let first = ARCHIVE_BLOCK_BYTES * block;
    let last = file.len().min(first + ARCHIVE_BLOCK_BYTES) - 1;
    let reason = fault(file, block).map_or("no fault was found in it".into(), |fault| fault.to_string());
    format!("block {block}, the bytes {first} to {last}, is bad: {reason}")
}

fn named(recording: &Recording<'_>) -> String {
    let Recording { house, start, issue, payload } = recording;
    format!("house {house}, start second {start}, issue {issue}, {} bytes", payload.len())
}

/// The number in a word of the command.
fn number<T: FromStr>(what: &str, word: &str, most: impl Into<u64>) -> Result<T, String> {
    word.parse().map_err(|_| format!("{what} {word} is no whole number from 0 to {}", most.into()))
}

fn bytes_of(name: &str) -> Result<Vec<u8>, String> {
    fs::read(name).map_err(|error| format!("{name}: {error}"))
}

/// What is in an archive; nothing where there is no file yet.
fn before(name: &str) -> Result<Vec<u8>, String> {
    match fs::read(name) {
        Err(error) if error.kind() == ErrorKind::NotFound => Ok(Vec::new()),
        read => read.map_err(|error| error.to_string()),
    }
}

/// The archive with a recording added after what it holds.
fn added(mut file: Vec<u8>, recording: &Recording<'_>) -> Result<Vec<u8>, String> {
    let &Recording { house, start, issue, payload } = recording;
    let old = file.len();
    file.resize(old + archive_bytes(payload.len()), 0);
    archive_write(house, start, issue, payload, &mut file[old..]).map_err(|refusal| match refusal {
        Refusal::TooLarge => format!("{} payload bytes are over {MAX_PAYLOAD_BYTES}", payload.len()),
        _ => refusal.to_string(),
    })?;
    Ok(file)
}

/// The issue in force of the recordings with the same house and start second, if the file is an archive.
fn issue_in_force(file: &[u8], added: &Recording<'_>) -> Result<u16, String> {
    let Recording { house, start, issue, .. } = added;
    let mut storage = Storage::of(file);
    let mut recordings = storage.read(file).map_err(|error| match error.refusal {
        Refusal::RecordingTwice => {
            format!("house {house}, start second {start}, issue {issue} is in it already")
        }
        _ => why(error, file),
    })?;
    let same = recordings.find(|other| (other.house, other.start) == (*house, *start));
    Ok(same.expect("one of them is in force").issue)
}

/// Appends blocks to a file, or leaves it as long as it was: with a part of them it would be refused.
fn append(name: &str, end: usize, blocks: &[u8]) -> io::Result<()> {
    let mut file = OpenOptions::new().append(true).create(true).open(name)?;
    file.write_all(blocks).or_else(|error| file.set_len(end as u64).and(Err(error)))
}

fn add(name: &str, [house, start, issue]: [&str; 3], from: &str) -> Done {
    let payload = bytes_of(from)?;
    let (house, issue) = (number("house", house, u16::MAX)?, number("issue", issue, u16::MAX)?);
    let start = number("start second", start, u32::MAX)?;
    let recording = Recording { house, start, issue, payload: &payload };
    let old = before(name)?;
    Storage::of(&old).read(&old).map_err(|error| why(error, &old))?;
    let end = old.len();
    let file = added(old, &recording)?;
    let in_force = issue_in_force(&file, &recording)?;
    append(name, end, &file[end..])?;
    println!("{name}: added {}", named(&recording));
    if in_force != issue {
        println!("  not in force: issue {in_force} is higher");
    }
    Ok(())
}

fn list(name: &str) -> Done {
    let file = bytes_of(name)?;
    let mut storage = Storage::of(&file);
    let recordings = storage.read(&file).map_err(|error| why(error, &file))?;
    println!("{name}: recordings in force: {}", recordings.len());
    for recording in recordings {
        println!("  {}", named(&recording));
    }
    Ok(())
}

fn take(name: &str, [house, start]: [&str; 2], out: &str) -> Done {
    let wanted = (number("house", house, u16::MAX)?, number("start second", start, u32::MAX)?);
    let file = bytes_of(name)?;
    let mut storage = Storage::of(&file);
    let mut recordings = storage.read(&file).map_err(|error| why(error, &file))?;
    let found = recordings.find(|recording| (recording.house, recording.start) == wanted);
    let recording = found.ok_or_else(|| format!("house {house}, start second {start} is not in it"))?;
    fs::write(out, recording.payload).map_err(|error| format!("{out}: {error}"))?;
    println!("{out}: {}", named(&recording));
    Ok(())
}

fn main() -> ExitCode {
    let words: Vec<String> = std::env::args().skip(1).collect();
    let words: Vec<&str> = words.iter().map(String::as_str).collect();
    let (not_done, done) = match *words.as_slice() {
        [file, "add", house, start, issue, from] => {
            (format!("nothing is added to {file}"), add(file, [house, start, issue], from))
        }
        [file, "list"] => (format!("{file} is not listed"), list(file)),
        [file, "take", house, start, out] => {
            (format!("nothing is taken from {file}"), take(file, [house, start], out))
        }
        _ => ("usage".into(), Err(USAGE.into())),
    };
    match done {
        Ok(()) => ExitCode::SUCCESS,
        Err(why) => {
            eprintln!("{not_done}: {why}");
            ExitCode::FAILURE
        }
    }
}
