//! Samples for morning pages: around a threshold, at the ends of 32 bits, small ones and silence.
use crate::numbers;
use crate::random::Random;

/// The largest distance from 0, which only the lowest sample has.
pub const FARTHEST: u32 = 1 << 31;

/// From where all samples but 0 are loud to where none is.
pub const THRESHOLDS: [u32; 5] = [0, 1, FARTHEST - 1, FARTHEST, u32::MAX];

/// The ends of 32 bits, and what lies about 0.
const ENDS: [i32; 7] = [0, 1, -1, i32::MAX, i32::MAX - 1, -i32::MAX, i32::MIN];

/// Makes a sample for a page with this threshold.
pub type Sound = fn(&mut Random, u32) -> i32;

pub const SOUNDS: [Sound; 6] = [
    |_, _| 0,
    |random, _| random.pick(&ENDS),
    |random, _| random.below(21) as i32 - 10,
    |random, _| numbers::any(random),
    |random, _| random.next() as i32,
    around,
];

/// A sample at this distance from 0, or as far from it as samples are.
pub fn at(random: &mut Random, distance: u32) -> i32 {
    let sample = distance.min(FARTHEST) as i32;
    // The lowest sample has no other at its distance.
    if random.once_in(2) { sample.wrapping_neg() } else { sample }
}

/// A sample just beyond the threshold, or just at it.
pub fn loud_or_quiet(random: &mut Random, threshold: u32, loud: bool) -> i32 {
    at(random, threshold.saturating_add(loud.into()))
}

/// A sample at the threshold, beyond it or before it.
pub fn around(random: &mut Random, threshold: u32) -> i32 {
    let distance = random.pick(&[threshold.saturating_sub(1), threshold, threshold.saturating_add(1)]);
    at(random, distance)
}

/// A threshold at the distance of one of the samples, or beside it.
pub fn near(random: &mut Random, samples: &[i32]) -> u32 {
    let sample = samples.get(random.below(samples.len().max(1)));
    let distance = sample.map_or(0, |sample| sample.unsigned_abs());
    random.pick(&[distance.saturating_sub(1), distance, distance + 1])
}
