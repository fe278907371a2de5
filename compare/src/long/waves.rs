//! Exports of recordings with samples at and beyond the ends of the span, and damaged sound files.
use super::damage;
use super::packs::room_near;
use super::reads::slots_near;
use super::recordings::Recordings;
use crate::kinds::wave_exports::{Export, beyond, rate, within};
use crate::kinds::wave_imports::Import;
use crate::random::Random;
use crate::their_waves::{HEADER, MAX_SAMPLES, file, file_bytes};
use crate::wave_headers;

/// The low 16 bits of a recording's residuals.
fn sound(random: &mut Random, from: &Recordings) -> Vec<i16> {
    from.pick(random).residuals.iter().map(|&residual| residual as i16).collect()
}

pub fn export(random: &mut Random, from: &Recordings) -> Export {
    let mut samples: Vec<i32> = sound(random, from).into_iter().map(i32::from).collect();
    damage::numbers(random, &mut samples, 4, within);
    if random.once_in(8) {
        damage::numbers(random, &mut samples, 2, beyond);
    }
    if samples.len() == MAX_SAMPLES && random.once_in(2) {
        samples.extend([1, 2]);
    }
    if random.once_in(16) {
        samples.pop();
    }
    let room = room_near(random, file_bytes(samples.len()));
    Export { rate: rate(random), samples, room, slots: slots_near(random, 1) }
}

/// A file of a recording: whole, with damaged data after a header that has their length, with
/// fields that hold something else, or damaged anywhere.
fn damaged(random: &mut Random, from: &Recordings) -> Vec<u8> {
    let mut data: Vec<u8> = sound(random, from).into_iter().flat_map(i16::to_le_bytes).collect();
    let rate = rate(random);
    if data.len() == 2 * MAX_SAMPLES && random.once_in(2) {
        data.extend([1; 4]);
    }
    match random.below(4) {
        0 => wave_headers::mixed(random, rate, &data),
        1 => {
            damage::bytes(random, &mut data);
            file(rate, &data)
        }
        2 => {
            let mut out = file(rate, &data);
            damage::bytes(random, &mut out);
            out
        }
        _ => file(rate, &data),
    }
}

pub fn import(random: &mut Random, from: &Recordings) -> Import {
    let length = random.below(100);
    let file = if random.once_in(32) { random.bytes(length) } else { damaged(random, from) };
    let room = room_near(random, file.len().saturating_sub(HEADER) / 2);
    Import { file, room, slots: slots_near(random, 2) }
}
