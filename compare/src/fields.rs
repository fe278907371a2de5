//! Bits of payloads, made of the fields that words are made of, around every cap.
use crate::random::Random;

/// Counts of ones around each cap: the escape at 16, 32 and 33 of a run or of a second count.
const COUNTS: [usize; 17] = [0, 1, 2, 3, 4, 5, 14, 15, 16, 17, 18, 30, 31, 32, 33, 34, 40];

/// Bits in the order in which they are read.
#[derive(Clone, Default)]
pub struct Bits(pub Vec<bool>);

impl Bits {
    /// `count` ones and the zero that ends them.
    pub fn ones(&mut self, count: usize) {
        self.0.extend(std::iter::repeat_n(true, count));
        self.0.push(false);
    }

    /// `count` bits that are all 0, all 1, or random.
    pub fn filled(&mut self, count: usize, fill: usize, random: &mut Random) {
        self.0.extend((0..count).map(|_| if fill < 2 { fill == 1 } else { random.once_in(2) }));
    }

    /// A count of ones near a cap, at times a second one, and the bits that belong to it.
    pub fn field(&mut self, random: &mut Random) {
        for _ in 0..1 + random.below(2) {
            let count = if random.once_in(2) { random.below(6) } else { random.pick(&COUNTS) };
            self.ones(count);
        }
        let (count, fill) = (random.below(34), random.below(3));
        self.filled(count, fill, random);
    }

    /// The bytes that hold the bits, the spare ones 0.
    pub fn bytes(&self) -> Vec<u8> {
        let value = |bits: &[bool]| bits.iter().rev().fold(0, |byte, &bit| byte * 2 + u8::from(bit));
        self.0.chunks(8).map(value).collect()
    }

    /// A payload that ends with the first `count` of the bits, and the place where they start.
    pub fn cut(&self, count: usize) -> (Vec<u8>, u32) {
        let place = (8 - count % 8) % 8;
        let shifted = Bits([&vec![true; place], &self.0[..count]].concat());
        (shifted.bytes(), place as u32)
    }
}

/// A payload of about `length` bytes: random, mostly ones, or made of fields.
pub fn payload(random: &mut Random, length: usize) -> Vec<u8> {
    match random.below(4) {
        0 => random.bytes(length),
        1 => random
            .bytes(length)
            .into_iter()
            .map(|byte| byte | random.next() as u8 | random.next() as u8)
            .collect(),
        _ => {
            let mut bits = Bits::default();
            while bits.0.len() < 8 * length {
                bits.field(random);
            }
            bits.bytes()
        }
    }
}

/// Bytes that are all 0, all ones, random, or made of fields around every cap.
pub fn fresh(random: &mut Random, length: usize) -> Vec<u8> {
    match random.below(5) {
        0 => vec![0; length],
        1 => vec![0xff; length],
        2 => random.bytes(length),
        _ => {
            let mut bytes = payload(random, length);
            bytes.truncate(length);
            bytes
        }
    }
}

/// Medians at the ends of the rules: of the run gate, of the division by 16, of each step and of 32
/// bits.
pub const MEDIANS: [u32; 20] = [
    0,
    1,
    2,
    3,
    15,
    16,
    17,
    31,
    32,
    62,
    64,
    126,
    128,
    1 << 20,
    (1 << 31) - 1,
    1 << 31,
    u32::MAX - 128,
    u32::MAX - 16,
    u32::MAX - 1,
    u32::MAX,
];

/// A median at an end, or random with any number of bits.
pub fn median(random: &mut Random) -> u32 {
    if random.once_in(2) { random.pick(&MEDIANS) } else { (random.next() as u32) >> random.below(32) }
}
