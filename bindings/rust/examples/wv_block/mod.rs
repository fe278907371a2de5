//! A block of a `.wv` file, by the steps of docs/WV_FILES.md: the steps 1 to 4 find its parts and make its
//! passes. `samples` has the steps 5 to 8.
use std::fmt;
use wavpack_stereo::{MAX_FRAMES, MAX_PASSES, Pass, Refusal, log_word, term_byte, weight_byte};

pub mod samples;

/// The flags of blocks that are not decoded, and what such a block holds.
const NOT_DECODED: [(u32, &str); 6] = [
    (1 << 2, "mono"),
    (1 << 3, "hybrid"),
    (1 << 7, "floats"),
    (31 << 13, "shifted"),
    (1 << 30, "false stereo"),
    (1 << 31, "DSD"),
];
/// The flags of a block that is the first and the last one of its frames.
const ALONE: u32 = 3 << 11;
const HEADER: usize = 32;

/// Why a block is not decoded.
pub enum Why {
    /// It holds something that is not decoded, or it is damaged.
    Holds(&'static str),
    Refused(Refusal),
    Damaged {
        what: &'static str,
        found: u32,
        stored: u32,
    },
}

impl fmt::Display for Why {
    fn fmt(&self, f: &mut fmt::Formatter<'_>) -> fmt::Result {
        match self {
            Why::Holds(what) => write!(f, "not decoded: {what}"),
            Why::Refused(refusal) => write!(f, "not decoded: refusal {}, {refusal}", refusal.number()),
            Why::Damaged { what, found, stored } => {
                write!(f, "damaged: the {what} is {found:08x}, not {stored:08x}")
            }
        }
    }
}

impl From<Refusal> for Why {
    fn from(refusal: Refusal) -> Why {
        Why::Refused(refusal)
    }
}

/// Takes the first `count` bytes off, if there are as many.
fn take<'a>(bytes: &mut &'a [u8], count: usize) -> Option<&'a [u8]> {
    let (taken, rest) = bytes.split_at_checked(count)?;
    *bytes = rest;
    Some(taken)
}

/// What a header says of its block, and all bytes of the block: none where it is cut short.
pub struct Block<'a> {
    version: u32,
    pub total: u32,
    pub first: u32,
    pub frames: u32,
    pub flags: u32,
    checksum: u32,
    bytes: Option<&'a [u8]>,
}

/// Takes a block off; none where no block starts.
pub fn take_block<'a>(file: &mut &'a [u8]) -> Option<Block<'a>> {
    let header: &[u8; HEADER] = file.first_chunk().filter(|header| header.starts_with(b"wvpk"))?;
    let number = |at: usize| u32::from_le_bytes([header[at], header[at + 1], header[at + 2], header[at + 3]]);
    let bytes = take(file, number(4).saturating_add(8) as usize);
    if bytes.is_none() {
        *file = &[];
    }
    Some(Block {
        version: number(8) & 0xffff,
        total: number(12),
        first: number(16),
        frames: number(20),
        flags: number(24),
        checksum: number(28),
        bytes: bytes.filter(|bytes| bytes.len() >= HEADER),
    })
}

/// Refuses what the library does not decode: it would read other samples from it.
fn test(block: &Block<'_>) -> Result<(), Why> {
    match NOT_DECODED.into_iter().find(|(bits, _)| block.flags & bits != 0) {
        Some((_, what)) => Err(Why::Holds(what)),
        None if block.flags & ALONE != ALONE => Err(Why::Holds("several channels")),
        None if !(0x402..=0x410).contains(&block.version) => Err(Why::Holds("another version")),
        None if block.frames as usize > MAX_FRAMES => Err(Refusal::TooLarge.into()),
        None => Ok(()),
    }
}

/// The sub-blocks that decoding needs; empty where the block has none.
#[derive(Default)]
pub struct Parts<'a> {
    terms: &'a [u8],
    weights: &'a [u8],
    seeds: &'a [u8],
    pub entropy: &'a [u8],
    pub payload: &'a [u8],
    /// What large integers are made of: four fields, and low bits after a checksum.
    pub fields: &'a [u8],
    pub low_bits: &'a [u8],
    /// The checksum of the block's bytes, and the bytes that it covers.
    bytes_sum: Option<(&'a [u8], &'a [u8])>,
}

/// Takes a sub-block off: its id and its data.
fn take_part<'a>(body: &mut &'a [u8]) -> Option<(u8, &'a [u8])> {
    let (size, mut head) = (if body.first()? & 0x80 == 0 { 2 } else { 4 }, [0; 4]);
    head[..size].copy_from_slice(take(body, size)?);
    let [id, low, middle, high] = head;
    let data = take(body, 2 * u32::from_le_bytes([low, middle, high, 0]) as usize)?;
    let padding = usize::from(id >> 6 & 1);
    Some((id & 0x3f, &data[..data.len().checked_sub(padding)?]))
}

/// The sub-blocks of a block that is decoded.
pub fn parts<'a>(block: &Block<'a>) -> Result<Parts<'a>, Why> {
    let bytes = block.bytes.ok_or(Why::Holds("cut short"))?;
    test(block)?;
    let (mut body, mut parts) = (&bytes[HEADER..], Parts::default());
    while !body.is_empty() {
        let before = &bytes[..bytes.len() - body.len()];
        let (id, data) = take_part(&mut body).ok_or(Why::Holds("a sub-block past its end"))?;
        match id {
            0x02 => parts.terms = data,
            0x03 => parts.weights = data,
            0x04 => parts.seeds = data,
            0x05 => parts.entropy = data,
            0x09 => parts.fields = data,
            0x0a => parts.payload = data,
            0x0c => parts.low_bits = data,
            0x2f => parts.bytes_sum = Some((data, before)),
            0x00 | 0x0d | 0x20.. => {}
            _ => return Err(Why::Holds("an unknown sub-block")),
        }
    }
    Ok(parts)
}

/// Takes the seeds of a term off, A's and B's, each newest first; empty where no more are stored.
fn take_seeds(term: i32, stored: &mut &[u8]) -> Result<[Vec<i32>; 2], Why> {
    if stored.is_empty() {
        return Ok(Default::default());
    }
    let each = match term {
        1..=8 => term as usize,
        17 | 18 => 2,
        _ => 1,
    };
    let mine = take(stored, 4 * each).ok_or(Why::Holds("a part of a pass's seeds"))?;
    let words = mine.chunks_exact(2).map(|word| i16::from_le_bytes([word[0], word[1]]));
    let values = words.map(log_word).collect::<Result<Vec<i32>, Refusal>>()?;
    let every_other = |from: usize| values[from..].iter().copied().step_by(2);
    Ok(match term {
        17 | 18 => [values[..2].to_vec(), values[2..].to_vec()],
        -3 => [every_other(1).collect(), every_other(0).collect()],
        _ => [every_other(0).rev().collect(), every_other(1).rev().collect()],
    })
}

/// The passes in the order in which they run: a file stores the last one first.
pub fn passes(parts: &Parts<'_>) -> Result<Vec<Pass>, Why> {
    if parts.terms.len() > MAX_PASSES {
        return Err(Refusal::TooManyPasses.into());
    }
    let (mut weights, mut seeds, mut passes) = (parts.weights, parts.seeds, Vec::new());
    for &byte in parts.terms {
        let stored = term_byte(byte);
        let pair = if weights.is_empty() { Some(&[0, 0][..]) } else { take(&mut weights, 2) };
        let pair = pair.ok_or(Why::Holds("half a pair of weights"))?;
        let [seed_a, seed_b] = take_seeds(stored.term, &mut seeds)?;
        passes.push(Pass::new(
            stored.term,
            stored.delta,
            [pair[0], pair[1]].map(weight_byte),
            [&seed_a, &seed_b],
        )?);
    }
    passes.reverse();
    Ok(passes)
}
