//! Fields and samples for recordings wider than the words.
use crate::plain_int32::{MAX_FIELD, image};
use crate::random::Random;
use std::iter::once;
use wavpack_stereo::Int32Info;

/// Fields that are refused, some of them with one that is in their low bits.
pub const BEYOND: [u32; 8] = [32, 33, 63, 64, 255, 256, 1 << 31, u32::MAX];

/// Sent bits, zeros, ones, dups.
pub fn info_of([sent_bits, zeros, ones, dups]: [u32; 4]) -> Int32Info {
    Int32Info { sent_bits, zeros, ones, dups }
}

/// The fields in that order.
fn fields(info: Int32Info) -> [u32; 4] {
    [info.sent_bits, info.zeros, info.ones, info.dups]
}

/// The fields with another one at a place.
pub fn with_field(info: Int32Info, place: usize, field: u32) -> Int32Info {
    let mut fields = fields(info);
    fields[place] = field;
    info_of(fields)
}

/// Every way to put bits in, without sent bits: none, and zeros, ones or dups of every width.
pub fn settings() -> impl Iterator<Item = Int32Info> {
    let none = Int32Info::default();
    once(none)
        .chain((1..4).flat_map(move |place| (1..=MAX_FIELD).map(move |field| with_field(none, place, field))))
}

/// Every number of sent bits with every way to put bits in.
pub fn every_setting() -> impl Iterator<Item = Int32Info> {
    settings().flat_map(|info| (0..=MAX_FIELD).map(move |sent_bits| Int32Info { sent_bits, ..info }))
}

/// Two of zeros, ones and dups at once, in every pair of widths, with any sent bits and at times the
/// third.
pub fn two_at_once(random: &mut Random) -> Vec<Int32Info> {
    let mut out = Vec::new();
    for (first, second) in [(1, 2), (1, 3), (2, 3)] {
        for (a, b) in (1..=MAX_FIELD).flat_map(|a| (1..=MAX_FIELD).map(move |b| (a, b))) {
            let rest = info_of([field(random), 0, 0, 0]);
            let rest =
                if random.once_in(8) { with_field(rest, 6 - first - second, field(random)) } else { rest };
            out.push(with_field(with_field(rest, first, a), second, b));
        }
    }
    out
}

fn field(random: &mut Random) -> u32 {
    random.below(MAX_FIELD as usize + 1) as u32
}

/// Any fields that are accepted; mostly few bits are put in, and mostly by one field.
pub fn any(random: &mut Random) -> Int32Info {
    if random.once_in(8) {
        return info_of(std::array::from_fn(|_| field(random)));
    }
    let (sent_bits, width) = (field(random), field(random) >> random.below(5));
    with_field(info_of([sent_bits, 0, 0, 0]), 1 + random.below(3), width)
}

/// The fields with one of them too large.
pub fn beyond(random: &mut Random, info: Int32Info) -> Int32Info {
    with_field(info, random.below(4), random.pick(&BEYOND))
}

/// Lengths one below a limit, at it and one above, each with every way to put bits in and with few,
/// some and the most sent bits.
pub fn around(limit: usize) -> impl Iterator<Item = (usize, Int32Info)> {
    let infos = [[0, 7, 0, 0], [1, 0, 3, 0], [8, 0, 0, 2], [31, 0, 0, 0]].map(info_of);
    (limit - 1..=limit + 1).flat_map(move |length| infos.map(|info| (length, info)))
}

/// Fields with one of them smaller.
pub fn smaller(info: Int32Info) -> impl Iterator<Item = Int32Info> {
    (0..4).flat_map(move |place| {
        let field = fields(info)[place];
        let fields =
            [0, field / 2, field.saturating_sub(1)].into_iter().filter(move |&smaller| smaller < field);
        fields.map(move |smaller| with_field(info, place, smaller))
    })
}

/// The ends of 32 bits, every power of two, its negative, and what lies beside them.
pub fn ends() -> Vec<i32> {
    let powers = (0..32).flat_map(|bits| [1_i32 << bits, (1_i32 << bits).wrapping_neg()]);
    powers.flat_map(|power| [power.wrapping_sub(1), power, power.wrapping_add(1)]).collect()
}

/// The images of samples.
pub fn images(info: Int32Info, samples: &[i32]) -> Vec<i32> {
    samples.iter().map(|&sample| image(info, sample)).collect()
}
