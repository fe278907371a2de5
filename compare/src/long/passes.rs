//! Damaged lists of passes, and passes made of damaged seeds.
use super::damage;
use super::reads::slots_near;
use super::recordings::Recordings;
use crate::kinds::making::Making;
use crate::kinds::passes::{self, Passes};
use crate::numbers;
use crate::random::Random;
use crate::their_passes::{MAX_ELEMENTS, Pass, TERMS};

/// Terms that are not valid, some of them outside 8 bits with a valid term in the low 8.
const BAD_TERMS: [i32; 16] =
    [0, 9, 16, 19, -4, -128, 127, 128, 255, 253, 257, 273, -255, -259, i32::MAX, i32::MIN];
const DELTAS: [i32; 12] = [0, 7, 8, 31, 32, 33, 255, -1, -7, -32, i32::MAX, i32::MIN];
const WEIGHTS: [i32; 12] =
    [0, 1023, 1024, 1025, -1023, -1024, -1025, 32_767, -32_768, i32::MAX, i32::MIN, 1 << 30];

/// Damages one slot of a pass.
fn damage_pass(random: &mut Random, pass: &mut Pass) {
    match random.below(8) {
        0 if random.once_in(4) => pass[0] = random.pick(&BAD_TERMS),
        0 => pass[0] = i32::from(random.pick(&TERMS)),
        1 | 2 => pass[1] = random.pick(&DELTAS),
        3 | 4 => pass[2 + random.below(2)] = random.pick(&WEIGHTS),
        _ => pass[4 + random.below(16)] = numbers::any(random),
    }
}

fn count(random: &mut Random) -> usize {
    match random.below(16) {
        0 => random.below(18),
        1 => 15 + random.below(3),
        2 => 0,
        _ => 1 + random.below(3),
    }
}

/// Elements of a recording, of sound, or any; odd and even numbers of them.
fn buffer(random: &mut Random, from: &Recordings) -> Vec<i32> {
    if random.once_in(2) {
        let length = random.below(100);
        return passes::buffer(random, length);
    }
    let mut out = from.pick(random).residuals.clone();
    if out.len() == MAX_ELEMENTS && random.once_in(2) {
        out.push(1);
    }
    if random.once_in(2) {
        out.pop();
    }
    damage::numbers(random, &mut out, 3, numbers::any);
    out
}

pub fn passes(random: &mut Random, from: &Recordings) -> Passes {
    let count = count(random);
    let mut list = passes::list(random, count);
    for _ in 0..random.below(6) {
        if let Some(pass) = list.get_mut(random.below(count.max(1))) {
            damage_pass(random, pass);
        }
    }
    let rest = if random.once_in(16) { 1 + random.below(19) } else { 0 };
    Passes { analyse: random.once_in(2), passes: list, rest, buffer: buffer(random, from) }
}

pub fn making(random: &mut Random) -> Making {
    let term = if random.once_in(8) { random.next() as i8 } else { random.pick(&TERMS) };
    let seed = |random: &mut Random| {
        let length = if random.once_in(2) { term.unsigned_abs() as usize % 17 } else { random.below(12) };
        numbers::list(random, length)
    };
    let (seed_a, seed_b) = (seed(random), seed(random));
    let numbers = [random.pick(&DELTAS), random.pick(&WEIGHTS), numbers::any(random)];
    Making { term, numbers, seed_a, seed_b, slots: slots_near(random, 20) }
}
