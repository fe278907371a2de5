//! Reassembly and deconstruction of wide samples as plain loops in safe Rust, in place and without a
//! checksum. The literal bits go through a number of 64 bits, which is filled by eight bytes and
//! emptied by four, as measured best; each way to put bits in has a loop of its own.
use crate::plain_int32::{BYTES_PER_SAMPLE, MAX_FIELD, MAX_SAMPLES, literal_bytes, width};
use wavpack_stereo::Int32Info;

/// The low bits of a word.
fn mask(bits: u32) -> u32 {
    (1 << bits) - 1
}

/// Whether fields and samples are accepted.
fn in_order(info: Int32Info, samples: &[i32]) -> bool {
    let Int32Info { sent_bits, zeros, ones, dups } = info;
    sent_bits.max(zeros).max(ones).max(dups) <= MAX_FIELD && samples.len() <= MAX_SAMPLES
}

fn put_together(samples: &mut [i32], literal: &[u8], sent_bits: u32, put_in: impl Fn(i32) -> i32) {
    if sent_bits == 0 {
        samples.iter_mut().for_each(|sample| *sample = put_in(*sample));
        return;
    }
    let (words, rest) = literal.as_chunks::<8>();
    let mut last = [0; 8];
    last[..rest.len()].copy_from_slice(rest);
    let (mut words, mut held, mut count) = (words.iter(), 0, 0);
    for sample in samples {
        let below = if count < sent_bits {
            let next = u64::from_le_bytes(*words.next().unwrap_or(&last));
            let below = held | next << count;
            held = next >> (sent_bits - count);
            count += 64 - sent_bits;
            below
        } else {
            let below = held;
            held >>= sent_bits;
            count -= sent_bits;
            below
        };
        *sample = put_in(*sample << sent_bits | (below as u32 & mask(sent_bits)) as i32);
    }
}

/// Reassembly: how many bits were read; none where the rules refuse.
pub fn reassemble(info: Int32Info, samples: &mut [i32], literal: &[u8]) -> Option<u32> {
    if !in_order(info, samples) {
        return None;
    }
    let (literal, width) = (literal.get(..literal_bytes(info, samples.len()))?, width(info));
    let below = mask(width) as i32;
    match info {
        Int32Info { sent_bits, zeros: 1.., .. } => {
            put_together(samples, literal, sent_bits, |sample| sample << width)
        }
        Int32Info { sent_bits, ones: 1.., .. } => {
            put_together(samples, literal, sent_bits, |sample| sample << width | below)
        }
        Int32Info { sent_bits, dups: 1.., .. } => {
            put_together(samples, literal, sent_bits, |sample| sample << width | (-(sample & 1) & below))
        }
        Int32Info { sent_bits, .. } => put_together(samples, literal, sent_bits, |sample| sample),
    }
    Some(samples.len() as u32 * info.sent_bits)
}

/// Whether every sample ends in the bits that are taken out: what differs is gathered, so that no
/// branch hangs on a sample.
fn reinsertable(info: Int32Info, samples: &[i32]) -> bool {
    let below = mask(width(info)) as i32;
    let gathered = |differs: fn(i32) -> i32| samples.iter().fold(0, |all, &sample| all | differs(sample));
    let all = match info {
        Int32Info { zeros: 1.., .. } => gathered(|sample| sample),
        Int32Info { ones: 1.., .. } => gathered(|sample| !sample),
        // Each bit beside the one above it.
        _ => gathered(|sample| sample ^ sample >> 1),
    };
    all & below == 0
}

fn take_apart(samples: &mut [i32], literal: &mut [u8], sent_bits: u32, width: u32) {
    if sent_bits == 0 {
        samples.iter_mut().for_each(|sample| *sample >>= width);
        return;
    }
    let (words, rest) = literal.as_chunks_mut::<4>();
    let (mut words, mut held, mut count) = (words.iter_mut(), 0, 0);
    for sample in samples {
        let plain = *sample >> width;
        held |= u64::from(plain as u32 & mask(sent_bits)) << count;
        count += sent_bits;
        *sample = plain >> sent_bits;
        if count >= 32 {
            if let Some(word) = words.next() {
                *word = (held as u32).to_le_bytes();
            }
            held >>= 32;
            count -= 32;
        }
    }
    rest.copy_from_slice(&held.to_le_bytes()[..rest.len()]);
}

/// Deconstruction: how many bits were written; none where the rules refuse.
pub fn deconstruct(info: Int32Info, samples: &mut [i32], literal: &mut [u8]) -> Option<u32> {
    if !in_order(info, samples)
        || literal.len() < BYTES_PER_SAMPLE * samples.len()
        || !reinsertable(info, samples)
    {
        return None;
    }
    take_apart(samples, &mut literal[..literal_bytes(info, samples.len())], info.sent_bits, width(info));
    Some(samples.len() as u32 * info.sent_bits)
}
