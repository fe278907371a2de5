//! Archive files, stated from their rules alone (Q9.1 to Q9.10 of docs/PROVED.md): the published Rust
//! has none.

/// How many bytes a block has, how many of them are data, and how many of its data a recording opens
/// with.
pub const BLOCK: usize = 512;
pub const DATA: usize = 504;
pub const HEADER: usize = 12;

/// The longest payload of the rules.
pub const MAX_PAYLOAD: usize = 4_194_304;

/// Where a block's check stands.
pub const CHECK: usize = 508;

#[derive(Clone, Debug, PartialEq)]
pub struct Recording {
    pub house: u16,
    pub start: u32,
    pub issue: u16,
    pub payload: Vec<u8>,
}

/// A refusal: its number, and what it leaves in the answer.
#[derive(Clone, Debug, PartialEq)]
pub struct Refused {
    pub number: u32,
    pub answer: Vec<u32>,
}

/// What reading gives, and whether a recording is superseded.
pub struct Listed {
    pub list: Vec<u32>,
    pub payloads: Vec<u8>,
    pub superseded: bool,
}

/// The number in some bytes, the low one first.
pub fn number(bytes: &[u8]) -> usize {
    bytes.iter().rev().fold(0, |number, &byte| 256 * number + usize::from(byte))
}

/// The sum of (position + 1) times byte.
pub fn check(bytes: &[u8]) -> u32 {
    (1..).zip(bytes).map(|(factor, &byte)| factor * u32::from(byte)).sum()
}

/// A block with this number, whose used data these are.
fn block(number: usize, data: &[u8]) -> Vec<u8> {
    let mut block = [&(number as u16).to_le_bytes(), &(data.len() as u16).to_le_bytes(), data].concat();
    block.resize(CHECK, 0);
    let check = check(&block);
    [&block[..], &check.to_le_bytes()].concat()
}

impl Recording {
    /// What is cut into blocks.
    fn stream(&self) -> Vec<u8> {
        let length = self.payload.len() as u32;
        let (house, issue) = (self.house.to_le_bytes(), self.issue.to_le_bytes());
        [&house[..], &self.start.to_le_bytes(), &issue, &length.to_le_bytes(), &self.payload].concat()
    }

    /// The recording that has this stream.
    fn of(stream: &[u8]) -> Recording {
        Recording {
            house: number(&stream[..2]) as u16,
            start: number(&stream[2..6]) as u32,
            issue: number(&stream[6..8]) as u16,
            payload: stream[HEADER..].to_vec(),
        }
    }

    /// Its blocks.
    pub fn blocks(&self) -> Vec<u8> {
        self.stream().chunks(DATA).enumerate().flat_map(|(place, data)| block(place, data)).collect()
    }

    fn rivals(&self, other: &Recording) -> bool {
        self.house == other.house && self.start == other.start
    }

    /// Whether no recording of the file with its house and start second has a higher issue.
    fn in_force(&self, all: &[Recording]) -> bool {
        !all.iter().any(|other| self.rivals(other) && other.issue > self.issue)
    }
}

/// The file of these recordings, in their order.
pub fn file(recordings: &[Recording]) -> Vec<u8> {
    recordings.iter().flat_map(Recording::blocks).collect()
}

/// How many bytes the blocks of such a payload take.
pub fn file_bytes(payload: usize) -> usize {
    BLOCK * (HEADER + payload).div_ceil(DATA)
}

/// How long a stream is by the payload length in its header; none where that is above its limit.
fn stream_bytes(header: &[u8]) -> Option<usize> {
    let payload = number(&header[8..HEADER]);
    (payload <= MAX_PAYLOAD).then_some(HEADER + payload)
}

/// The used data of a block, where `before` is what the blocks before it gave of its recording's stream,
/// nothing where it starts one; none where the block is bad.
fn used<'a>(block: &'a [u8], before: &[u8]) -> Option<&'a [u8]> {
    if block.len() < BLOCK || number(&block[CHECK..]) != check(&block[..CHECK]) as usize {
        return None;
    }
    let data = &block[4..CHECK];
    let left = stream_bytes(if before.is_empty() { data } else { before })? - before.len();
    let (used, filling) = data.split_at(left.min(DATA));
    let as_asked = number(&block[..2]) == before.len() / DATA
        && number(&block[2..4]) == used.len()
        && filling.iter().all(|&byte| byte == 0);
    as_asked.then_some(used)
}

/// The recordings of a file, in its order, or its first bad block, counted from 0.
pub fn recordings(file: &[u8]) -> Result<Vec<Recording>, usize> {
    let (mut all, mut stream) = (Vec::new(), Vec::new());
    for (place, block) in file.chunks(BLOCK).enumerate() {
        stream.extend_from_slice(used(block, &stream).ok_or(place)?);
        if Some(stream.len()) == stream_bytes(&stream) {
            all.push(Recording::of(&stream));
            stream.clear();
        }
    }
    // The last block is bad where its recording is unfinished.
    if stream.is_empty() { Ok(all) } else { Err(file.len() / BLOCK - 1) }
}

/// A refusal that leaves the answer as it was.
pub fn refused(number: u32) -> Refused {
    Refused { number, answer: Vec::new() }
}

/// Whether two recordings agree in house, start second and issue.
fn twice(all: &[Recording]) -> bool {
    let same = |a: &Recording, b: &Recording| a.rivals(b) && a.issue == b.issue;
    all.iter().enumerate().any(|(place, a)| all[..place].iter().any(|b| same(a, b)))
}

/// What is in force, for any storage, or the refusal.
pub fn listed(file: &[u8]) -> Result<Listed, Refused> {
    let all = recordings(file).map_err(|place| Refused { number: 18, answer: vec![place as u32, 0] })?;
    if twice(&all) {
        return Err(refused(19));
    }
    let (mut list, mut payloads) = (Vec::new(), Vec::new());
    for recording in all.iter().filter(|recording| recording.in_force(&all)) {
        let Recording { house, start, issue, payload } = recording;
        list.extend([u32::from(*house), *start, u32::from(*issue), payload.len() as u32]);
        payloads.extend_from_slice(payload);
    }
    Ok(Listed { superseded: list.len() < 4 * all.len(), list, payloads })
}

/// Reading into storage of these lengths, the list's and the payloads'.
pub fn read(file: &[u8], rooms: [usize; 2]) -> Result<Listed, Refused> {
    let listed = listed(file)?;
    if rooms[0] < listed.list.len() || rooms[1] < listed.payloads.len() {
        return Err(refused(11));
    }
    Ok(listed)
}

/// Writing: the blocks, or the refusal number.
pub fn write(recording: &Recording, room: usize) -> Result<Vec<u8>, u32> {
    if recording.payload.len() > MAX_PAYLOAD {
        return Err(5);
    }
    if room < file_bytes(recording.payload.len()) {
        return Err(11);
    }
    Ok(recording.blocks())
}
