//! The rules for archives, stated plainly (rows Q9.1 to Q9.6 of docs/PROVED.md), and both calls held to
//! them. A block is judged by making the block that should stand in its place.
use crate::archive_fault::fault;
use wavpack_stereo::{ArchiveError, MAX_PAYLOAD_BYTES, Refusal, archive_bytes, archive_read, archive_write};

/// What lent storage holds before a call.
pub const MARK: u8 = 77;

/// A recording of a file.
#[derive(Clone, Debug, PartialEq, Eq)]
pub struct Stored {
    pub key: (u16, u32),
    pub issue: u16,
    pub payload: Vec<u8>,
}

pub fn stored(house: u16, start: u32, issue: u16, payload: &[u8]) -> Stored {
    Stored { key: (house, start), issue, payload: payload.to_vec() }
}

/// Q9.2: the check of a block, with or without a check at its end.
fn check(block: &[u8]) -> [u8; 4] {
    let sum: u32 = (0..508).map(|position| (position + 1) * u32::from(block[position as usize])).sum();
    sum.to_le_bytes()
}

/// Puts the check of a block right.
pub fn put_right(block: &mut [u8]) {
    let right = check(block);
    block[508..].copy_from_slice(&right);
}

/// Q9.1: the block of a number and its used bytes.
fn block(number: usize, used: &[u8]) -> Vec<u8> {
    let mut block = [&(number as u16).to_le_bytes(), &(used.len() as u16).to_le_bytes(), used].concat();
    block.resize(508, 0);
    let check = check(&block);
    [&block[..], &check].concat()
}

/// Q9.3: the blocks of a recording.
pub fn blocks_of(recording: &Stored) -> Vec<u8> {
    let (house, start) = recording.key;
    let mut stream =
        [&house.to_le_bytes()[..], &start.to_le_bytes(), &recording.issue.to_le_bytes()].concat();
    stream.extend((recording.payload.len() as u32).to_le_bytes());
    stream.extend(&recording.payload);
    stream.chunks(504).enumerate().flat_map(|(number, used)| block(number, used)).collect()
}

pub fn archive_of(recordings: &[Stored]) -> Vec<u8> {
    recordings.iter().flat_map(blocks_of).collect()
}

/// The recording that a whole stream holds.
fn of_stream(stream: &[u8]) -> Stored {
    let short = |at: usize| u16::from_le_bytes([stream[at], stream[at + 1]]);
    let start = u32::from(short(2)) + 65_536 * u32::from(short(4));
    stored(short(0), start, short(6), &stream[12..])
}

/// Q9.6: the recordings of a file, or its first bad block.
fn recordings(file: &[u8]) -> Result<Vec<Stored>, usize> {
    let (mut found, mut stream) = (vec![], vec![]);
    for (at, stands) in file.chunks(512).enumerate() {
        let Some(data) = stands.get(4..508).filter(|_| stands.len() == 512) else { return Err(at) };
        let head = if stream.is_empty() { data } else { &stream };
        let length = u32::from_le_bytes([head[8], head[9], head[10], head[11]]) as usize;
        if length > 4_194_304 {
            return Err(at);
        }
        let used = &data[..504.min(12 + length - stream.len())];
        if stands != block(stream.len() / 504, used) {
            return Err(at);
        }
        stream.extend(used);
        if stream.len() == 12 + length {
            found.push(of_stream(&stream));
            stream.clear();
        } else if 512 * (at + 1) == file.len() {
            return Err(at);
        }
    }
    Ok(found)
}

/// Q9.4, Q9.5: those that none of the same key supersedes, in the order of the file.
fn in_force(recordings: &[Stored]) -> Vec<Stored> {
    let highest = |one: &&Stored| recordings.iter().all(|r| r.key != one.key || r.issue <= one.issue);
    recordings.iter().filter(highest).cloned().collect()
}

fn twice(recordings: &[Stored]) -> bool {
    let agrees = |(at, one): (usize, &Stored)| {
        recordings[..at].iter().any(|other| (other.key, other.issue) == (one.key, one.issue))
    };
    recordings.iter().enumerate().any(agrees)
}

/// What a file holds: those in force, or why it is refused whatever storage there is.
pub fn stated(file: &[u8]) -> Result<Vec<Stored>, ArchiveError> {
    let refused = |refusal, bad_block| ArchiveError { refusal, bad_block };
    let all = recordings(file).map_err(|block| refused(Refusal::BadBlock, Some(block)))?;
    if twice(&all) { Err(refused(Refusal::RecordingTwice, None)) } else { Ok(in_force(&all)) }
}

/// A reading into marks, for so many recordings and payload bytes. What it does not write keeps them.
pub fn read_into(file: &[u8], room: usize, bytes: usize) -> Result<Vec<Stored>, ArchiveError> {
    let (mut list, mut payloads) = (vec![[MARK.into(); 4]; room], vec![MARK; bytes]);
    let read = archive_read(file, &mut list, &mut payloads);
    let owned = |recordings: wavpack_stereo::Recordings<'_>| {
        recordings.map(|r| stored(r.house, r.start, r.issue, r.payload)).collect::<Vec<_>>()
    };
    let answer = read.map(owned);
    let written: &[Stored] = answer.as_deref().unwrap_or_default();
    let written_bytes: usize = written.iter().map(|recording| recording.payload.len()).sum();
    assert!(list[written.len()..].iter().all(|numbers| *numbers == [MARK.into(); 4]), "list");
    assert!(payloads[written_bytes..].iter().all(|&byte| byte == MARK), "payloads");
    answer
}

/// Holds a reading to the rules, in storage with a little more than it needs; the example finds a fault
/// in the bad block and in none before it.
pub fn compare(file: &[u8]) -> Result<Vec<Stored>, ArchiveError> {
    let (answer, rule) = (read_into(file, file.len() / 512 + 1, file.len() + 1), stated(file));
    assert!(answer == rule, "{:?} and not {:?}", answer.as_ref().err(), rule.err());
    let bad = answer.as_ref().err().and_then(|error| error.bad_block);
    for at in 0..bad.map_or(file.len().div_ceil(512), |bad| bad + 1) {
        assert_eq!(fault(file, at).is_some(), bad == Some(at), "block {at}");
    }
    answer
}

/// Holds a writing to the rules, in storage with `room` bytes more, or refused in storage with one less.
pub fn compare_written(recording: &Stored, room: usize) -> Vec<u8> {
    let ((house, start), length) = (recording.key, recording.payload.len());
    let bytes = archive_bytes(length);
    let mut out = vec![MARK; bytes + room];
    let mut write =
        |bytes| archive_write(house, start, recording.issue, &recording.payload, &mut out[..bytes]);
    assert!(length <= MAX_PAYLOAD_BYTES, "a payload that is refused");
    assert_eq!(write(bytes - 1), Err(Refusal::OutputTooShort), "{length} bytes");
    assert_eq!(write(0), Err(Refusal::OutputTooShort), "{length} bytes");
    assert_eq!(write(bytes + room), Ok(bytes), "{length} bytes");
    let after = out.split_off(bytes);
    assert!(out == blocks_of(recording) && after == vec![MARK; room], "{length} bytes");
    out
}
