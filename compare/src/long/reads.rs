//! Readings of damaged payloads, and damaged entropy payloads alone.
use super::damage;
use super::recordings::Recordings;
use crate::kinds::entropy::Entropy;
use crate::kinds::reads::{self, Read};
use crate::random::Random;
use crate::theirs::{MAX_BYTES, MAX_FRAMES};

/// How many frames are asked for: as many as were packed, or about as many, or too many for the
/// library.
pub fn frames_near(random: &mut Random, frames: usize) -> usize {
    match random.below(16) {
        0 => frames + 1,
        1 => frames + random.below(8),
        2 => frames - random.below(frames.min(4) + 1),
        3 => random.below(2 * frames.min(1000) + 2),
        4 if random.once_in(64) => random.pick(&[MAX_FRAMES, MAX_FRAMES + 1, usize::MAX / 2 + 1, usize::MAX]),
        _ => frames,
    }
}

/// The length of a list for `frames` frames, at times another.
fn length_near(random: &mut Random, frames: usize) -> usize {
    let asked = 2 * frames.min(MAX_FRAMES + 1);
    match random.below(24) {
        0 => random.below(asked.min(1000) + 3),
        1 => asked.saturating_add_signed(random.pick(&[-1, 1])),
        _ => asked,
    }
}

/// Damages a payload up to three times, at times at the place of a word; rarely it becomes as long
/// as payloads may be, or one byte longer.
pub fn damaged(random: &mut Random, payload: &[u8], place: u32) -> Vec<u8> {
    let mut payload = payload.to_vec();
    if random.once_in(8) {
        damage::plant(random, &mut payload, place as usize);
    }
    for _ in 0..random.below(4) {
        damage::bytes(random, &mut payload);
    }
    if random.once_in(20_000) {
        payload.resize(MAX_BYTES + random.below(2), 0xff);
    }
    payload
}

/// Slots of an answer: as many as are asked for, at times fewer or more.
pub fn slots_near(random: &mut Random, slots: usize) -> usize {
    if random.once_in(32) { random.below(slots + 3) } else { slots }
}

pub fn read(random: &mut Random, from: &Recordings) -> Read {
    let base = from.pick(random);
    let place = base.states[random.below(base.states.len())][0];
    let (mut entropy, payload) = (base.entropy.clone(), damaged(random, &base.payload, place));
    if random.once_in(6) {
        damage::entropy(random, &mut entropy);
    }
    let frames = frames_near(random, base.residuals.len() / 2);
    let length = length_near(random, frames);
    Read { entropy, payload, frames, length, slots: slots_near(random, reads::SLOTS) }
}

pub fn entropy(random: &mut Random, from: &Recordings) -> Entropy {
    let mut payload = from.pick(random).entropy.clone();
    for _ in 0..random.below(4) {
        damage::entropy(random, &mut payload);
    }
    Entropy { payload, slots: slots_near(random, 6) }
}
