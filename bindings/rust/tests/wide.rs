//! Recordings wider than the words against a plain statement of their rules (`wide_rules`): every field
//! from 0 to 31, numbers at the ends of 32 bits, every image of a setting and what lies a bit beside
//! it, the lengths up to the longest, literal storage a bit too short, and every set of faults (row
//! Q6.6 of docs/PROVED.md).
mod random;
mod wide_rules;

use random::Random;
use std::collections::HashSet;
use wavpack_stereo::{Int32Info, MAX_ELEMENTS, Refusal, deconstruct_int32, reassemble_int32};
use wide_rules::{MARK, Tally, bytes_of, completed, fields, image, kinds, narrowed};

const ENDS: [i32; 11] =
    [0, 1, -1, 2, -2, 0x5555_5555, i32::MAX - 1, i32::MAX, -i32::MAX, i32::MIN, i32::MIN + 2];

impl Random {
    fn bytes(&mut self, length: usize) -> Vec<u8> {
        (0..length).map(|_| self.next() as u8).collect()
    }
}

/// What refuses to complete samples, which are then as they were.
fn not_completed(info: Int32Info, narrow: &[i32], literal: &[u8]) -> Refusal {
    let mut samples = narrow.to_vec();
    let refusal = reassemble_int32(info, &mut samples, literal).unwrap_err();
    assert!(samples == narrow, "{info:?}");
    refusal
}

/// What refuses to make samples narrow; they and the storage are then as they were.
fn not_narrowed(info: Int32Info, wide: &[i32], room: usize) -> Refusal {
    let (mut samples, mut storage) = (wide.to_vec(), vec![MARK; room]);
    let refusal = deconstruct_int32(info, &mut samples, &mut storage).unwrap_err();
    assert!(samples == wide && storage == vec![MARK; room], "{info:?}");
    refusal
}

#[test]
fn a_recording_by_hand() {
    let info = fields(3, [0, 0, 2]);
    let (narrow, wide, mut samples, mut literal) = ([1, -1], [0b11_0111, -24], [1, -1], [MARK; 8]);
    assert_eq!(reassemble_int32(info, &mut samples, &[0b1101_0101]), Ok(6));
    assert_eq!((samples, completed(info, &narrow, &[0b1101_0101])), (wide, wide.to_vec()));
    assert_eq!(deconstruct_int32(info, &mut samples, &mut literal), Ok(6));
    assert_eq!((samples, &literal[..2]), (narrow, &[0b01_0101, MARK][..]));
    assert_eq!(narrowed(info, &wide), (narrow.to_vec(), vec![0b01_0101]));
}

#[test]
fn every_setting_over_the_ends_of_the_numbers() {
    let mut tally = Tally::default();
    for (sent_bits, count) in (0..32).flat_map(|sent_bits| (0..32).map(move |count| (sent_bits, count))) {
        for redundancy in kinds(count) {
            let info = fields(sent_bits, redundancy);
            for byte in [0x00, 0xff, 0x55, 0xb4] {
                tally.compare(info, &ENDS, &vec![byte; bytes_of(info, ENDS.len())], 1);
            }
        }
    }
    let bits = 3 * 32 * 4 * ENDS.len() * (0..32).sum::<usize>();
    // Bits leave the 32 wherever some are put in.
    assert_eq!(tally, Tally { recordings: 12_288, samples: 12_288 * ENDS.len(), bits, lost: 12_288 - 3 * 4 });
}

#[test]
fn every_three_counts_at_once() {
    let mut random = Random(20_261_119);
    let mut tally = Tally::default();
    for i in 0..32_u32.pow(3) {
        let info = fields(random.below(32) as u32, [i % 32, i / 32 % 32, i / 1_024]);
        let (narrow, literal) = (random.numbers(3), random.bytes(12));
        tally.compare(info, &narrow, &literal, 0);
    }
    assert_eq!((tally.recordings, tally.samples), (32_768, 3 * 32_768));
}

#[test]
fn random_recordings() {
    let mut random = Random(20_261_120);
    let mut tally = Tally::default();
    for round in 0..4_000 {
        let sent_bits = random.below(32);
        // Every other recording is narrow enough that nothing leaves the 32 bits.
        let fits = round % 2 == 1;
        let count = random.below(if fits { 32 - sent_bits } else { 32 });
        let info = fields(sent_bits as u32, kinds(count as u32)[round % 3]);
        let length = random.below(100);
        let mut narrow = random.numbers(length);
        if fits {
            narrow.iter_mut().for_each(|number| *number >>= sent_bits + count);
        }
        let literal = random.bytes(bytes_of(info, length) + round % 7);
        tally.compare(info, &narrow, &literal, round % 11);
    }
    assert_eq!(tally.recordings, 4_000);
    assert!(tally.samples > 150_000 && tally.bits > 2_000_000, "{tally:?}");
    assert!(tally.lost > 1_800 && tally.lost <= 2_000, "{tally:?}");
}

#[test]
fn lengths_up_to_the_longest() {
    let mut random = Random(20_261_121);
    let mut tally = Tally::default();
    let settings = [fields(0, [0, 3, 0]), fields(1, [0; 3]), fields(13, [0, 0, 5]), fields(31, [1, 0, 0])];
    let short = (0..=66).flat_map(|length| settings.map(|info| (info, length)));
    let long = [(settings[2], MAX_ELEMENTS - 1), (settings[3], MAX_ELEMENTS), (settings[0], MAX_ELEMENTS)];
    for (info, length) in short.chain(long) {
        let literal = random.bytes(bytes_of(info, length));
        tally.compare(info, &random.numbers(length), &literal, 0);
    }
    assert_eq!((tally.recordings, tally.samples), (4 * 67 + 3, 4 * (66 * 67 / 2) + 3 * MAX_ELEMENTS - 1));
    for length in [MAX_ELEMENTS + 1, 2 * MAX_ELEMENTS] {
        let samples = vec![0; length];
        for info in settings {
            assert_eq!(not_completed(info, &samples, &vec![MARK; 4 * length]), Refusal::TooLarge);
            assert_eq!(not_narrowed(info, &samples, 4 * length), Refusal::TooLarge);
        }
    }
}

#[test]
fn a_value_that_is_no_image_is_refused() {
    let (mut accepted, mut refused) = (0, 0);
    for redundancy in (22..32).flat_map(kinds) {
        let info = fields(4, redundancy);
        // Of a value only the bits count that are not shifted out: these are all images.
        let count: u32 = redundancy.iter().sum();
        let images: HashSet<i32> = (0..2_i32.pow(32 - count)).map(|value| image(info, value)).collect();
        for wide in images.iter().flat_map(|image| (0..32).map(move |bit| image ^ 1 << bit).chain([*image])) {
            if images.contains(&wide) {
                assert_eq!(deconstruct_int32(info, &mut [wide], &mut [MARK; 4]), Ok(4), "{info:?}, {wide}");
                accepted += 1;
            } else {
                assert_eq!(not_narrowed(info, &[wide], 4), Refusal::NotReinsertable, "{wide}");
                refused += 1;
            }
        }
    }
    // Of the 2^n images that keep n bits each is beside n others, but for copies beside n - 1.
    let beside = (1..=10).map(|n| 2_usize.pow(n) * (2 * (n as usize + 1) + n as usize)).sum();
    assert_eq!((accepted, accepted + refused), (beside, 3 * 2_046 * 33));
}

#[test]
fn one_bit_in_one_sample_is_refused() {
    let mut random = Random(20_261_122);
    for (count, length) in (1..32).flat_map(|count| (1..6).map(move |length| (count, length))) {
        for (kind, redundancy) in kinds(count).into_iter().enumerate() {
            let info = fields(random.below(32) as u32, redundancy);
            let images: Vec<i32> = random.numbers(length).iter().map(|&value| image(info, value)).collect();
            // A copy differs from the bit above it also where that one is flipped.
            let counting = if kind == 2 { count + 1 } else { count };
            for (place, bit) in (0..length).flat_map(|place| (0..32).map(move |bit| (place, bit))) {
                let mut wide = images.clone();
                wide[place] ^= 1 << bit;
                if bit < counting {
                    assert_eq!(not_narrowed(info, &wide, 4 * length), Refusal::NotReinsertable);
                } else {
                    assert!(
                        deconstruct_int32(info, &mut wide, &mut vec![MARK; 4 * length]).is_ok(),
                        "{info:?}"
                    );
                }
            }
        }
    }
}

#[test]
fn literal_storage_around_its_limits() {
    let (mut a_bit_short, redundancy) = (0, [0, 0, 7]);
    for (sent_bits, length) in (0..32).flat_map(|sent_bits| (0..41).map(move |length| (sent_bits, length))) {
        let info = fields(sent_bits, redundancy);
        let (samples, bits) = (vec![-1; length], length * sent_bits as usize);
        for bytes in 0..bits.div_ceil(8) {
            assert_eq!(not_completed(info, &samples, &vec![MARK; bytes]), Refusal::Truncated);
            a_bit_short += usize::from(8 * bytes + 1 == bits);
        }
        for room in 0..4 * length {
            assert_eq!(not_narrowed(info, &samples, room), Refusal::OutputTooShort);
        }
        // `compare` lends just enough and more.
        Tally::default().compare(info, &samples, &vec![MARK; bits.div_ceil(8)], 0);
        Tally::default().compare(info, &samples, &vec![MARK; bits.div_ceil(8) + 1], 1);
    }
    assert_eq!(a_bit_short, 80);
}

#[test]
fn every_set_of_faults_has_its_first_answered() {
    let first = |set: usize, refusals: &[Refusal]| refusals[set.trailing_zeros() as usize];
    let (long, most) = (vec![1; MAX_ELEMENTS + 1], 4 * MAX_ELEMENTS);
    for (field, value) in
        (0..4).flat_map(|field| [32, 33, 255, 256, 1 << 31, u32::MAX].map(|value| (field, value)))
    {
        for set in 1..16 {
            // The value 1 ends in no two 0s.
            let mut named = [7, if set & 8 == 0 { 0 } else { 2 }, 0, 0];
            if set & 1 != 0 {
                named[field] = value;
            }
            let [sent_bits, redundancy @ ..] = named;
            let samples = &long[..if set & 2 == 0 { 3 } else { long.len() }];
            let (bytes, room) = if set & 4 == 0 { (most, most + 4) } else { (2, 4 * samples.len() - 1) };
            let info = fields(sent_bits, redundancy);
            let order =
                [Refusal::FieldAbove31, Refusal::TooLarge, Refusal::OutputTooShort, Refusal::NotReinsertable];
            assert_eq!(not_narrowed(info, samples, room), first(set, &order));
            if set & 7 != 0 {
                let order = [Refusal::FieldAbove31, Refusal::TooLarge, Refusal::Truncated];
                assert_eq!(not_completed(info, samples, &vec![MARK; bytes]), first(set, &order));
            }
        }
    }
}
