//! Archive files: writing and reading the longest payload, and reading files of 100 MB and of many
//! recordings. The Rust is a plain loop (`archive_loops`); both sides fill lent storage.
use super::{TURNS, archive_loops, row, row_of, timed};
use crate::random::Random;
use crate::their_archives::{MAX_PAYLOAD, Recording};
use std::time::Duration;
use wavpack_stereo::{archive_read, archive_write};

/// How many turns a file has that is longer than `LARGE`.
pub const FEW_TURNS: usize = 10;
const LARGE: usize = 2 * MAX_PAYLOAD;

/// Files of many recordings: how many, the length of their payloads, and of how many one is superseded
/// at the end of the file; none where that is 0.
const FILES: [(&str, usize, usize, usize); 6] = [
    ("100 MB of 4,000,000 bytes a recording", 25, 4_000_000, 0),
    ("100 MB of 20,000 bytes a recording", 5_000, 20_000, 0),
    ("10,000 recordings of a block", 10_000, 492, 0),
    ("10,000 recordings of a block, a tenth superseded at the end", 10_000, 492, 10),
    ("100,000 recordings of a block", 100_000, 492, 0),
    ("100,000 recordings of a block, a tenth superseded at the end", 100_000, 492, 10),
];

/// A file with a name, and what is in force in it.
pub struct Input {
    name: String,
    turns: usize,
    pub file: Vec<u8>,
    pub list: Vec<u32>,
    pub payloads: Vec<u8>,
}

impl Input {
    /// So many recordings, each of a second of its own; then, where `again` is not 0, a higher issue of
    /// one in `again` of them.
    fn new(random: &mut Random, name: &str, count: usize, length: usize, again: usize) -> Input {
        let (mut file, mut list, mut payloads) = (Vec::new(), Vec::new(), Vec::new());
        let superseded = |place: usize| again > 0 && place.is_multiple_of(again);
        let first = (0..count).map(|place| (place, 0, !superseded(place)));
        let second = (0..count).filter(|&place| superseded(place)).map(|place| (place, 1, true));
        for (place, issue, in_force) in first.chain(second) {
            let (house, start) = (place as u16 % 7, 1_700_000_000 + 60 * place as u32);
            let recording = Recording { house, start, issue, payload: random.bytes(length) };
            file.extend(recording.blocks());
            if in_force {
                list.extend([house.into(), start, issue.into(), length as u32]);
                payloads.extend(recording.payload);
            }
        }
        let turns = if file.len() > LARGE { FEW_TURNS } else { TURNS };
        Input { name: name.to_string(), turns, file, list, payloads }
    }
}

/// The longest payload.
pub fn longest(random: &mut Random) -> Input {
    Input::new(random, "the longest payload", 1, MAX_PAYLOAD, 0)
}

/// Writing the one recording of an input, by either side: how many bytes it wrote.
pub fn write(ours: bool, input: &Input, out: &mut [u8]) -> Option<usize> {
    let (house, start, issue) = (input.list[0] as u16, input.list[1], input.list[2] as u16);
    let payload = &input.payloads;
    if ours {
        archive_write(house, start, issue, payload, out).ok()
    } else {
        archive_loops::write((house, start, issue), payload, out)
    }
}

/// Reading by either side: how many recordings are in force.
pub fn read(ours: bool, file: &[u8], list: &mut [u32], payloads: &mut [u8]) -> Option<usize> {
    if ours {
        archive_read(file, list.as_chunks_mut().0, payloads).ok().map(|recordings| recordings.len())
    } else {
        archive_loops::read(file, list, payloads)
    }
}

fn write_turn(ours: bool, input: &Input, out: &mut [u8]) -> Duration {
    out.fill(0x5a);
    let (time, written) = timed(|| write(ours, input, out));
    assert!(written == Some(out.len()) && out == input.file, "another file is written");
    time
}

fn read_turn(ours: bool, input: &Input, list: &mut [u32], payloads: &mut [u8]) -> Duration {
    list.fill(0x5a);
    payloads.fill(0x5a);
    let (time, count) = timed(|| read(ours, &input.file, list, payloads));
    assert!(count == Some(list.len() / 4) && list == input.list, "{}: another list is read", input.name);
    assert!(payloads == input.payloads, "{}: other payloads are read", input.name);
    time
}

fn read_row(input: &Input) {
    let [mut ours, mut theirs] = [0; 2].map(|_| (vec![0; input.list.len()], vec![0; input.payloads.len()]));
    row_of(
        &format!("reading an archive file, {} (the Rust: a loop, keys in a `HashMap`)", input.name),
        input.turns,
        None,
        &mut || read_turn(true, input, &mut ours.0, &mut ours.1),
        &mut || read_turn(false, input, &mut theirs.0, &mut theirs.1),
    );
}

pub fn run(random: &mut Random) {
    let input = longest(random);
    let [mut ours, mut theirs] = [vec![0; input.file.len()], vec![0; input.file.len()]];
    row(
        "writing an archive file, the longest payload (the Rust: a loop over the blocks)",
        || write_turn(true, &input, &mut ours),
        || write_turn(false, &input, &mut theirs),
    );
    read_row(&input);
    for (name, count, length, again) in FILES {
        read_row(&Input::new(random, name, count, length, again));
    }
}
