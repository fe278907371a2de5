//! Packings with residuals at and beyond the ends of the span, damaged entropy payloads and buffers
//! that are too short.
use super::damage;
use super::reads::{frames_near, slots_near};
use super::recordings::Recordings;
use crate::kinds::packs::Pack;
use crate::random::Random;
use crate::their_packing::SPAN;
use crate::theirs::MAX_FRAMES;
use wavpack_stereo::BYTES_PER_FRAME;

fn within(random: &mut Random) -> i32 {
    random.pick(&[SPAN - 1, SPAN - 2, -SPAN, 1 - SPAN, 0, -1])
}

fn beyond(random: &mut Random) -> i32 {
    random.pick(&[SPAN, SPAN + 1, -SPAN - 1, i32::MAX, i32::MIN])
}

/// The room that is asked for, or one less, or any.
pub fn room_near(random: &mut Random, asked: usize) -> usize {
    match random.below(16) {
        0 => asked.saturating_sub(1),
        1 => random.below(asked.min(2000) + 40),
        2 => asked + random.below(40),
        _ => asked,
    }
}

pub fn pack(random: &mut Random, from: &Recordings) -> Pack {
    let base = from.pick(random);
    let (mut residuals, mut entropy) = (base.residuals.clone(), base.entropy.clone());
    if random.once_in(2) {
        damage::numbers(random, &mut residuals, 4, within);
    }
    if random.once_in(12) {
        damage::numbers(random, &mut residuals, 2, beyond);
    }
    if random.once_in(5) {
        damage::entropy(random, &mut entropy);
    }
    let mut frames = residuals.len() / 2;
    if random.once_in(12) {
        frames = frames_near(random, frames);
    }
    // The list still suits most of the other numbers of frames.
    if frames <= MAX_FRAMES + 1 && !random.once_in(4) {
        residuals.resize(2 * frames, 1);
    }
    let room = room_near(random, BYTES_PER_FRAME * frames.min(MAX_FRAMES + 1));
    Pack { residuals, entropy, frames, room, slots: slots_near(random, 7) }
}
