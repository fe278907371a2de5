//! Wide samples of damaged recordings, put together with damaged literal bits and taken apart, by
//! fields of which one may be too large.
use super::damage;
use super::packs::room_near;
use super::reads::slots_near;
use super::recordings::Recordings;
use crate::int32_fields::{any, beyond, images};
use crate::kinds::deconstruction::Deconstruction;
use crate::kinds::reassembly::Reassembly;
use crate::numbers;
use crate::plain_int32::{BYTES_PER_SAMPLE, MAX_SAMPLES, literal_bytes};
use crate::random::Random;

/// The samples of a recording, some of them at the ends of 32 bits; at times an odd number of them,
/// or one too many.
fn samples(random: &mut Random, from: &Recordings) -> Vec<i32> {
    let mut out = from.pick(random).residuals.clone();
    damage::numbers(random, &mut out, 8, numbers::any);
    if out.len() == MAX_SAMPLES && random.once_in(2) {
        out.push(1);
    }
    if random.once_in(4) {
        out.pop();
    }
    out
}

pub fn reassembly(random: &mut Random, from: &Recordings) -> Reassembly {
    let (samples, mut info) = (samples(random, from), any(random));
    // The payload of a recording, as long as the literal bits have to be.
    let payload = from.pick(random).payload.iter().copied().cycle();
    let mut literal: Vec<u8> = payload.take(literal_bytes(info, samples.len())).collect();
    if random.once_in(3) {
        damage::bytes(random, &mut literal);
    }
    if random.once_in(16) {
        literal.pop();
    }
    if random.once_in(24) {
        info = beyond(random, info);
    }
    Reassembly { info, samples, literal, slots: slots_near(random, 1) }
}

/// Images of samples, at times damaged, or taken for images under other fields.
pub fn deconstruction(random: &mut Random, from: &Recordings) -> Deconstruction {
    let mut info = any(random);
    let mut samples = images(info, &samples(random, from));
    if random.once_in(8) {
        damage::numbers(random, &mut samples, 2, numbers::any);
    }
    match random.below(24) {
        0 => info = any(random),
        1 => info = beyond(random, info),
        _ => {}
    }
    let room = room_near(random, BYTES_PER_SAMPLE * samples.len());
    Deconstruction { info, samples, room, slots: slots_near(random, 1) }
}
