//! Samples wider than the words, stated from their rules alone (Q6.1 to Q6.6 of docs/PROVED.md): in
//! sums, products and quotients of whole numbers, and in lists of bits.
use crate::fields::Bits;
use wavpack_stereo::Int32Info;

/// The limits of the rules, and how many bytes a sample asks of the storage for literal bits.
pub const MAX_FIELD: u32 = 31;
pub const MAX_SAMPLES: usize = 262_144;
pub const BYTES_PER_SAMPLE: usize = 4;

/// Samples taken apart: what is left of them, how many literal bits there are, and the bytes that
/// hold these.
pub struct Apart {
    pub samples: Vec<i32>,
    pub bits: u32,
    pub literal: Vec<u8>,
}

fn power(bits: u32) -> i64 {
    2_i64.pow(bits)
}

/// A number kept to 32 bits.
fn kept(number: i64) -> i32 {
    number as i32
}

/// How many bits are put in below a sample: the first field that is not 0.
pub fn width(info: Int32Info) -> u32 {
    [info.zeros, info.ones, info.dups].into_iter().find(|&field| field > 0).unwrap_or(0)
}

/// A sample with the bits put in below it: `width` times 0, 1 or its own lowest bit.
pub fn image(info: Int32Info, sample: i32) -> i32 {
    let (sample, width) = (i64::from(sample), width(info));
    let bit = match (info.zeros, info.ones) {
        (1.., _) => 0,
        (0, 1..) => 1,
        (0, 0) => sample.rem_euclid(2),
    };
    kept(sample * power(width) + bit * (power(width) - 1))
}

/// Whether a number is the image of some sample whose low bits are `low`, as many as are `known`.
/// With one bit known or more, these and no others of the sample give as many bits of its image and
/// `width` more. Where these are the number's, both values of the sample's next bit are tried.
fn is_image_of(info: Int32Info, number: i32, low: u32, known: u32) -> bool {
    let fixed = known + width(info);
    if known > 0 && (image(info, low as i32) ^ number).trailing_zeros() < fixed {
        return false;
    }
    fixed == 32 || [low, low + (1 << known)].into_iter().any(|low| is_image_of(info, number, low, known + 1))
}

/// How many bytes hold the literal bits of so many samples; a field that is refused counts as the
/// largest.
pub fn literal_bytes(info: Int32Info, samples: usize) -> usize {
    (samples * info.sent_bits.min(MAX_FIELD) as usize).div_ceil(8)
}

/// Fields and samples are tested first, in both directions.
fn in_order(info: Int32Info, samples: &[i32]) -> Result<(), u32> {
    let Int32Info { sent_bits, zeros, ones, dups } = info;
    if [sent_bits, zeros, ones, dups].into_iter().any(|field| field > MAX_FIELD) {
        return Err(15);
    }
    if samples.len() > MAX_SAMPLES { Err(5) } else { Ok(()) }
}

/// Reassembly: how many bits it reads, and the samples; or the refusal number.
pub fn reassemble(info: Int32Info, samples: &[i32], literal: &[u8]) -> Result<(u32, Vec<i32>), u32> {
    in_order(info, samples)?;
    let bits = samples.len() * info.sent_bits as usize;
    if 8 * literal.len() < bits {
        return Err(3);
    }
    let mut stream = literal.iter().flat_map(|&byte| (0..8).map(move |place| i64::from(byte >> place) % 2));
    let mut below =
        || (0..info.sent_bits).zip(&mut stream).map(|(place, bit)| bit * power(place)).sum::<i64>();
    let wide = |&sample: &i32| image(info, kept(i64::from(sample) * power(info.sent_bits) + below()));
    Ok((bits as u32, samples.iter().map(wide).collect()))
}

/// Deconstruction: what comes of it, or the refusal number.
pub fn deconstruct(info: Int32Info, samples: &[i32], room: usize) -> Result<Apart, u32> {
    in_order(info, samples)?;
    if room < BYTES_PER_SAMPLE * samples.len() {
        return Err(11);
    }
    if !samples.iter().all(|&sample| is_image_of(info, sample, 0, 0)) {
        return Err(16);
    }
    // A shift that keeps the sign is a quotient rounded down.
    let shifted = |number: i64, bits| (number.div_euclid(power(bits)), number.rem_euclid(power(bits)));
    let (mut left, mut bits) = (Vec::with_capacity(samples.len()), Bits::default());
    for &sample in samples {
        let (plain, _) = shifted(sample.into(), width(info));
        let (above, mut below) = shifted(plain, info.sent_bits);
        left.push(kept(above));
        for _ in 0..info.sent_bits {
            bits.0.push(below % 2 == 1);
            below /= 2;
        }
    }
    Ok(Apart { samples: left, bits: bits.0.len() as u32, literal: bits.bytes() })
}
