//! Morning pages of recordings with samples at the ends of 32 bits and around the threshold.
use super::damage;
use super::packs::room_near;
use super::reads::slots_near;
use super::recordings::Recordings;
use crate::kinds::page_case::Page;
use crate::page_sounds::{SOUNDS, THRESHOLDS, loud_or_quiet, near};
use crate::random::Random;
use crate::their_pages::{BLOCK, MAX_SAMPLES, page_bytes};

/// A recording, at times repeated up to where one of the first blocks ends, since most are shorter
/// than a block.
fn sound(random: &mut Random, from: &Recordings) -> Vec<i32> {
    let recording = &from.pick(random).residuals;
    if !random.once_in(32) {
        return recording.clone();
    }
    let frames = BLOCK * (1 + random.below(3)) - 1 + random.below(4);
    recording.iter().copied().cycle().take(2 * frames).collect()
}

pub fn page(random: &mut Random, from: &Recordings) -> Page {
    let mut samples = sound(random, from);
    let mut threshold = near(random, &samples);
    if random.once_in(8) {
        threshold = random.pick(&THRESHOLDS);
    }
    damage::numbers(random, &mut samples, 8, |random| random.pick(&SOUNDS)(random, threshold));
    // Loud or quiet in the last frame of a block and in the first of the next.
    for edge in (2 * BLOCK..samples.len()).step_by(2 * BLOCK) {
        for sample in &mut samples[edge - 2..edge + 2] {
            let loud = random.once_in(2);
            *sample = loud_or_quiet(random, threshold, loud);
        }
    }
    if samples.len() == MAX_SAMPLES && random.once_in(2) {
        samples.extend([1, 2]);
    }
    if random.once_in(16) {
        samples.pop();
    }
    let room = room_near(random, page_bytes(samples.len()));
    Page { samples, threshold, room, slots: slots_near(random, 1) }
}
