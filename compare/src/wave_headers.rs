//! Files with headers that are not, or not quite, those of a sound file that is accepted.
use crate::random::Random;
use crate::their_waves::{Field, fields, file, laid};

const RATE: u32 = 44_100;

/// Numbers and letters that stand in headers of other files.
const NUMBERS: [u32; 19] =
    [0, 1, 2, 3, 4, 6, 8, 12, 16, 18, 20, 24, 32, 36, 40, 44, 0xfffe, 0xffff, u32::MAX];
const LETTERS: [[u8; 4]; 8] =
    [*b"RIFX", *b"RF64", *b"riff", *b"AIFF", *b"fmt\0", *b"fact", *b"LIST", *b"DATA"];

/// What may stand in a field instead of a number: others, and those near it, wrapped ones too.
fn instead(value: u32) -> Vec<u32> {
    let near = [1, 2, 4, 8, 36, 44, 1 << 16, 1 << 24, 1 << 30, 1 << 31].into_iter();
    let near = near.flat_map(|by| [value.wrapping_add(by), value.wrapping_sub(by)]);
    let turned = [value / 2, value.wrapping_mul(2), value.swap_bytes(), value.rotate_left(16)];
    NUMBERS.into_iter().chain(LETTERS.map(u32::from_le_bytes)).chain(near).chain(turned).collect()
}

fn with_fields(fields: &[Field], data: &[u8]) -> Vec<u8> {
    [&laid(fields), data].concat()
}

/// One field holds something else.
fn one_field(data: &[u8]) -> Vec<Vec<u8>> {
    let right = fields(RATE, data.len() as u32);
    let mut out = Vec::new();
    for at in 0..right.len() {
        for value in instead(right[at].1) {
            let mut other = right;
            other[at].1 = value;
            out.push(with_fields(&other, data));
        }
    }
    out
}

/// Both lengths agree with each other but not with the file.
fn other_lengths(data: &[u8]) -> Vec<Vec<u8>> {
    let lengths = instead(data.len() as u32).into_iter();
    lengths.map(|length| with_fields(&fields(RATE, length), data)).collect()
}

/// Rates at the ends of the span and outside it, some with the bytes a second of one inside.
fn rates(data: &[u8]) -> Vec<Vec<u8>> {
    let rates = [0, 1, 192_000, 192_001, 1 << 30, (1 << 30) + 1, (1 << 30) + RATE, 1 << 31, u32::MAX];
    rates.map(|rate| file(rate, data)).to_vec()
}

/// Another format, in order by itself.
fn with_format(format: u32, channels: u32, bits: u32, data: &[u8]) -> Vec<u8> {
    let (mut other, block) = (fields(RATE, data.len() as u32), channels * bits / 8);
    for (at, value) in [(5, format), (6, channels), (8, RATE * block), (9, block), (10, bits)] {
        other[at].1 = value;
    }
    with_fields(&other, data)
}

/// Other formats, numbers of channels and numbers of bits.
fn formats(data: &[u8]) -> Vec<Vec<u8>> {
    let mut out = Vec::new();
    for format in [0, 1, 2, 3, 6, 7, 0xfffe] {
        for channels in [1, 2, 3, 4, 6] {
            out.extend([8, 12, 16, 24, 32].map(|bits| with_format(format, channels, bits, data)));
        }
    }
    out
}

/// Format chunks of 18 and 40 bytes, and one more chunk after the data.
fn chunks(data: &[u8]) -> Vec<Vec<u8>> {
    let with = |format: u32, last: &[u8]| {
        let mut other = fields(RATE, data.len() as u32);
        (other[1].1, other[4].1) = (other[1].1 + format - 16 + last.len() as u32, format);
        let rest = vec![0; format as usize - 16];
        [&laid(&other[..11]), &rest, &laid(&other[11..]), data, last].concat()
    };
    vec![with(18, &[]), with(40, &[]), with(16, b"LIST\x04\0\0\0INFO")]
}

/// Every header of the kinds above, before these data.
pub fn all(data: &[u8]) -> Vec<Vec<u8>> {
    [one_field, other_lengths, rates, formats, chunks].map(|make| make(data)).concat()
}

/// Up to three fields hold something else.
pub fn mixed(random: &mut Random, rate: u32, data: &[u8]) -> Vec<u8> {
    let mut other = fields(rate, data.len() as u32);
    for _ in 0..random.below(4) {
        let at = random.below(other.len());
        other[at].1 = random.pick(&instead(other[at].1));
    }
    with_fields(&other, data)
}
