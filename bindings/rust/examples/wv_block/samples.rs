//! The samples of a block, and the checksums that they are held to: steps 5 to 8 of
//! docs/WV_FILES.md.
use super::{Block, Parts, Why, parts, passes};
use wavpack_stereo::{Int32Info, decorrelate, read, reassemble_int32};

pub const JOINT: u32 = 1 << 4;
const LARGE: u32 = 1 << 8;

/// The samples of a block, left then right.
pub fn decode(block: &Block<'_>) -> Result<Vec<i32>, Why> {
    let parts = parts(block)?;
    let mut samples = decode_words(block, &parts)?;
    if let Some(info) = fields(block, &parts)? {
        put_low_bits(info, parts.low_bits, &mut samples)?;
    }
    test_bytes(&parts)?;
    Ok(samples)
}

fn compare(what: &'static str, found: u32, stored: u32) -> Result<(), Why> {
    if found == stored { Ok(()) } else { Err(Why::Damaged { what, found, stored }) }
}

/// The samples as words and passes give them, held to the header's checksum: large integers are
/// still without their low bits.
pub fn decode_words(block: &Block<'_>, parts: &Parts<'_>) -> Result<Vec<i32>, Why> {
    let (mut passes, frames) = (passes(parts)?, block.frames as usize);
    let mut samples = vec![0; 2 * frames];
    read(parts.entropy, parts.payload, frames, &mut samples).map_err(|error| error.refusal)?;
    decorrelate(&mut passes, &mut samples)?;
    let mut found = u32::MAX;
    for frame in samples.chunks_exact_mut(2) {
        if block.flags & JOINT != 0 {
            frame[1] = frame[1].wrapping_sub(frame[0] >> 1);
            frame[0] = frame[0].wrapping_add(frame[1]);
        }
        let [left, right] = [frame[0] as u32, frame[1] as u32];
        found = found.wrapping_mul(9).wrapping_add(left.wrapping_mul(3)).wrapping_add(right);
    }
    compare("checksum", found, block.checksum)?;
    Ok(samples)
}

/// What was left out of large integers; none for other blocks.
pub fn fields(block: &Block<'_>, parts: &Parts<'_>) -> Result<Option<Int32Info>, Why> {
    match (block.flags & LARGE != 0, parts.fields) {
        (true, &[sent_bits, zeros, ones, dups]) => {
            let [sent_bits, zeros, ones, dups] = [sent_bits, zeros, ones, dups].map(u32::from);
            Ok(Some(Int32Info { sent_bits, zeros, ones, dups }))
        }
        (false, []) if parts.low_bits.is_empty() => Ok(None),
        _ => Err(Why::Holds("large integers without flag or fields")),
    }
}

/// Puts the low bits of large integers back, and holds the samples to the extension checksum, which
/// stands before the literal bits.
pub fn put_low_bits(info: Int32Info, low_bits: &[u8], samples: &mut [i32]) -> Result<(), Why> {
    let (stored, literal) = match low_bits.split_first_chunk() {
        Some((stored, literal)) => (Some(u32::from_le_bytes(*stored)), literal),
        None if low_bits.is_empty() => (None, low_bits),
        None => return Err(Why::Holds("a part of a checksum")),
    };
    reassemble_int32(info, samples, literal)?;
    let halves = samples.iter().map(|&sample| [sample as u32 & 0xffff, sample as u32 >> 16]);
    let found = halves.fold(u32::MAX, |sum, [low, high]| sum.wrapping_mul(9).wrapping_add(3 * low + high));
    stored.map_or(Ok(()), |stored| compare("extension checksum", found, stored))
}

/// Holds the bytes of a block to their checksum, where they have one: the only one that finds
/// another field of large integers without literal bits.
fn test_bytes(parts: &Parts<'_>) -> Result<(), Why> {
    let Some((stored, bytes)) = parts.bytes_sum else { return Ok(()) };
    let words = bytes.chunks_exact(2).map(|word| u32::from(u16::from_le_bytes([word[0], word[1]])));
    let found = words.fold(u32::MAX, |sum, word| sum.wrapping_mul(3).wrapping_add(word));
    match *stored {
        [a, b, c, d] => compare("checksum of the bytes", found, u32::from_le_bytes([a, b, c, d])),
        [a, b] => {
            compare("checksum of the bytes", (found ^ found >> 16) & 0xffff, u32::from_le_bytes([a, b, 0, 0]))
        }
        _ => Err(Why::Holds("a part of a checksum")),
    }
}
