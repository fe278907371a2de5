//! Damage to bytes and to numbers.
use crate::fields::{Bits, fresh};
use crate::payloads::plant_limit;
use crate::random::Random;
use std::ops::Range;

/// A part of a list: mostly short, anywhere.
fn part(random: &mut Random, length: usize) -> Range<usize> {
    let start = random.below(length + 1);
    let most = if random.once_in(4) { length - start } else { (length - start).min(3) };
    start..start + random.below(most + 1)
}

fn flip(random: &mut Random, bytes: &mut [u8]) {
    let count = if random.once_in(2) { 1 } else { 1 + random.below(8) };
    for _ in 0..count {
        if let Some(byte) = bytes.get_mut(random.below(bytes.len().max(1))) {
            *byte ^= 1 << random.below(8);
        }
    }
}

/// Damages a payload once: bits flipped; bytes cut out, put in, doubled, exchanged, overwritten;
/// the end cut off or added to.
pub fn bytes(random: &mut Random, bytes: &mut Vec<u8>) {
    let part = part(random, bytes.len());
    match random.below(9) {
        0 | 1 => flip(random, bytes),
        2 => drop(bytes.drain(part)),
        3 => {
            let length = 1 + random.below(12);
            bytes.splice(part.start..part.start, fresh(random, length)).for_each(drop);
        }
        4 => {
            let doubled = bytes[part.clone()].to_vec();
            bytes.splice(part.end..part.end, doubled).for_each(drop);
        }
        5 if !bytes.is_empty() => {
            let (a, b) = (random.below(bytes.len()), random.below(bytes.len()));
            bytes.swap(a, b);
        }
        6 => {
            let over = fresh(random, part.len());
            bytes[part].copy_from_slice(&over);
        }
        7 => bytes.truncate(part.start),
        _ => {
            let length = 1 + random.below(9);
            bytes.extend(fresh(random, length));
        }
    }
}

/// Damages an entropy payload once: as any bytes, or by a log word at a limit of the reach.
pub fn entropy(random: &mut Random, entropy: &mut Vec<u8>) {
    if random.once_in(4) { plant_limit(random, entropy) } else { bytes(random, entropy) }
}

/// Overwrites a payload from a bit on by a field whose counts are near their caps, as far as the
/// payload goes.
pub fn plant(random: &mut Random, bytes: &mut [u8], place: usize) {
    let mut bits = Bits::default();
    bits.ones(random.pick(&[1, 2, 15, 16, 16, 16, 17, 31, 32, 33, 34]));
    bits.ones(random.pick(&[0, 1, 2, 5, 31, 32, 33, 33, 33, 34]));
    let (count, fill) = (random.below(40), random.below(3));
    bits.filled(count, fill, random);
    for (at, bit) in (place..8 * bytes.len()).zip(bits.0) {
        bytes[at / 8] = bytes[at / 8] & !(1 << (at % 8)) | u8::from(bit) << (at % 8);
    }
}

/// Puts one of `values` at up to `most` places of a list.
pub fn numbers<T: Copy>(random: &mut Random, list: &mut [T], most: usize, value: impl Fn(&mut Random) -> T) {
    for _ in 0..random.below(most + 1) {
        if let Some(number) = list.get_mut(random.below(list.len().max(1))) {
            *number = value(random);
        }
    }
}
