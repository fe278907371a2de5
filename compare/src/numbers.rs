//! Signed numbers at the ends of 32 bits and everywhere between.
use crate::random::Random;

/// Where signs, weights, predictions and 32-bit sums turn.
const ENDS: [i32; 20] = [
    0,
    1,
    -1,
    2,
    511,
    512,
    -512,
    1023,
    1024,
    1025,
    -1023,
    -1024,
    -1025,
    1 << 30,
    -(1 << 30),
    (1 << 30) + 1,
    i32::MAX,
    i32::MAX - 1,
    i32::MIN,
    i32::MIN + 1,
];

/// A number at an end, or random with any number of bits.
pub fn any(random: &mut Random) -> i32 {
    if random.once_in(3) { random.pick(&ENDS) } else { (random.next() as i32) >> random.below(32) }
}

pub fn list(random: &mut Random, length: usize) -> Vec<i32> {
    (0..length).map(|_| any(random)).collect()
}
