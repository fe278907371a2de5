//! Recordings written as archive files: payload lengths around the ends of blocks and up to the longest,
//! every room for short ones, every set of faults, and keys and bytes at their ends.
use crate::archive_files::{HOUSES, ISSUES, Key, LENGTHS, STARTS, key, length, recording};
use crate::case::{Case, Failed, Run, Smaller, plainer, same, same_list, shorter};
use crate::lent::Lent;
use crate::ours;
use crate::random::Random;
use crate::their_archives::{self, MAX_PAYLOAD, Recording, file_bytes};
use std::fmt;

#[derive(Clone)]
pub struct ArchiveWrite {
    pub recording: Recording,
    /// The length of the lent buffer, and that of the answer.
    pub room: usize,
    pub slots: usize,
}

impl fmt::Debug for ArchiveWrite {
    fn fmt(&self, f: &mut fmt::Formatter<'_>) -> fmt::Result {
        let Recording { house, start, issue, payload } = &self.recording;
        let shown = &payload[..payload.len().min(1024)];
        write!(f, "ArchiveWrite {{ house: {house}, start: {start}, issue: {issue}, ")?;
        write!(f, "payload of {}: {shown:02x?}, room: {}, slots: {} }}", payload.len(), self.room, self.slots)
    }
}

impl ArchiveWrite {
    /// All of a recording, with just the room that it needs.
    pub fn whole(recording: Recording) -> ArchiveWrite {
        ArchiveWrite { room: file_bytes(recording.payload.len()), recording, slots: 1 }
    }

    /// With another payload; the buffer stays as much too short or too long.
    fn with_payload(&self, payload: Vec<u8>) -> ArchiveWrite {
        let before = file_bytes(self.recording.payload.len());
        let room = (self.room + file_bytes(payload.len())).saturating_sub(before);
        ArchiveWrite { recording: Recording { payload, ..self.recording }, room, ..*self }
    }

    /// Whether our reading of the file gives the recording.
    fn comes_back(&self, file: &[u8]) -> Result<(), String> {
        let Recording { house, start, issue, payload } = &self.recording;
        let (mut list, mut payloads, mut answer) = ([0; 4], vec![0; payload.len()], [0; 2]);
        let refusal = ours::archive_read(file, &mut list, &mut payloads, &mut answer);
        same("refusal of reading", &refusal, &0)?;
        let length = payload.len() as u32;
        same("answer of reading", &answer, &[1, length])?;
        same("list after reading", &list, &[u32::from(*house), *start, u32::from(*issue), length])?;
        same_list("payload after reading", &payloads, payload)
    }
}

impl Case for ArchiveWrite {
    fn compare(&self) -> Result<u32, String> {
        let (mut out, mut answer) = (Lent::marked(self.room), Lent::marked(self.slots));
        let mut payload = Lent::holding(&self.recording.payload);
        let Recording { house, start, issue, .. } = self.recording;
        let refusal = ours::archive_write((house, start, issue), payload.list(), out.list(), answer.list());
        payload.kept("payload")?;
        let theirs = their_archives::write(&self.recording, self.room);
        match if self.slots < 1 { Err(6) } else { theirs } {
            Ok(file) => {
                same("refusal", &refusal, &0)?;
                out.written("out", &file)?;
                answer.written("answer", &[file.len() as u32])?;
                self.comes_back(&file)?;
            }
            Err(number) => {
                same("refusal", &refusal, &number)?;
                out.kept("out")?;
                answer.kept("answer")?;
            }
        }
        Ok(refusal)
    }

    fn smaller(&self) -> Smaller<'_, ArchiveWrite> {
        let payload = &self.recording.payload;
        let less = shorter(payload).chain(plainer(payload)).map(|payload| self.with_payload(payload));
        let Recording { house, start, issue, .. } = self.recording;
        let keys = [(0, start, issue), (house, 0, issue), (house, start, 0)].into_iter();
        let keys = keys.filter(move |&key| key != (house, start, issue)).map(|(house, start, issue)| {
            let recording = Recording { house, start, issue, payload: payload.clone() };
            ArchiveWrite { recording, ..*self }
        });
        Box::new(less.chain(keys))
    }
}

fn whole_write(random: &mut Random, key: Key, length: usize) -> ArchiveWrite {
    ArchiveWrite::whole(recording(random, key, length))
}

/// Every payload length of up to four blocks, and those at the ends of each rule with rooms that are a
/// byte or a block too short, just long enough and longer.
fn lengths(run: &mut Run) -> Result<(), Failed> {
    for length in 0..2_020 {
        let case = whole_write(&mut run.random, (3, 4, 5), length);
        run.agree(case)?;
    }
    for length in LENGTHS {
        let case = whole_write(&mut run.random, (1, 1 << 31, 9), length);
        for room in [0, case.room - 512, case.room - 1, case.room, case.room + 1, case.room + 512] {
            run.agree(ArchiveWrite { room, ..case.clone() })?;
        }
    }
    Ok(())
}

/// Every room for recordings of one and two blocks, with up to 3 slots.
fn rooms(run: &mut Run) -> Result<(), Failed> {
    for length in [0, 1, 30, 491, 492, 493, 996] {
        let case = whole_write(&mut run.random, (1, 2, 3), length);
        for room in 0..case.room + 10 {
            let slots = run.random.pick(&[0, 1, 1, 1, 2, 3]);
            run.agree(ArchiveWrite { room, slots, ..case.clone() })?;
        }
    }
    Ok(())
}

/// Every house, start second and issue of those at their ends; and payloads of one byte only, which
/// have the largest check and the smallest.
fn keys(run: &mut Run) -> Result<(), Failed> {
    let keys = HOUSES.iter().flat_map(|&house| STARTS.map(|start| (house, start)));
    for (house, start, issue) in keys.flat_map(|(house, start)| ISSUES.map(|issue| (house, start, issue))) {
        for length in [0, 7, 500] {
            let case = whole_write(&mut run.random, (house, start, issue), length);
            run.agree(case)?;
        }
    }
    for byte in 0..=u8::MAX {
        for length in [492, 2 * 504 - 12] {
            let payload = vec![byte; length];
            run.agree(ArchiveWrite::whole(Recording { house: !0, start: !0, issue: !0, payload }))?;
        }
    }
    Ok(())
}

/// Every set of faults at once: no slot, a payload that is too long, a short buffer.
fn fault_sets(run: &mut Run) -> Result<(), Failed> {
    for set in 0..8 {
        let [slot, long, short] = std::array::from_fn(|fault| set >> fault & 1 == 1);
        let length = if long { MAX_PAYLOAD + 1 } else { 600 };
        let mut case = whole_write(&mut run.random, (0, 0, 0), length);
        case.slots -= usize::from(slot);
        case.room -= usize::from(short);
        run.agree(case)?;
    }
    Ok(())
}

/// Mostly a short recording, at times with one thing that is refused.
fn random_write(random: &mut Random) -> ArchiveWrite {
    let key = match random.below(2) {
        0 => key(random, ISSUES.len()),
        _ => (random.next() as u16, random.next() as u32, random.next() as u16),
    };
    let length = length(random);
    let mut case = whole_write(random, key, length);
    match random.below(8) {
        0 => case.room = random.below(case.room + 40),
        1 => case.slots = random.below(4),
        _ => case.room += random.below(40),
    }
    case
}

pub fn run(run: &mut Run) -> Result<(), Failed> {
    lengths(run)?;
    rooms(run)?;
    keys(run)?;
    fault_sets(run)?;
    for _ in 0..40_000 * run.scale {
        let case = random_write(&mut run.random);
        run.agree(case)?;
    }
    Ok(())
}
