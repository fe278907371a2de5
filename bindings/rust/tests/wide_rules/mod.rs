//! The rules for recordings wider than the words, stated plainly (rows Q6.1 to Q6.5 of
//! docs/PROVED.md), and both calls held to them.
use wavpack_stereo::{
    Int32Info, LITERAL_BYTES_PER_SAMPLE, bytes_for_bits, deconstruct_int32, reassemble_int32,
};

/// What lent storage holds before a call.
pub const MARK: u8 = 77;

pub fn fields(sent_bits: u32, [zeros, ones, dups]: [u32; 3]) -> Int32Info {
    Int32Info { sent_bits, zeros, ones, dups }
}

/// The settings of so much redundancy: 0s, 1s and copies.
pub fn kinds(count: u32) -> [[u32; 3]; 3] {
    [[count, 0, 0], [0, count, 0], [0, 0, count]]
}

/// How many bytes hold the literal bits.
pub fn bytes_of(info: Int32Info, samples: usize) -> usize {
    bytes_for_bits(samples as u32 * info.sent_bits)
}

/// A value with `count` equal bits below it, kept to 32 bits.
fn above(value: i32, count: u32, bit: i64) -> i32 {
    (i64::from(value) * 2_i64.pow(count) + bit * (2_i64.pow(count) - 1)) as i32
}

/// Q6.2: the image of a value under the redundancy setting.
pub fn image(info: Int32Info, value: i32) -> i32 {
    match info {
        Int32Info { zeros: 1.., .. } => above(value, info.zeros, 0),
        Int32Info { ones: 1.., .. } => above(value, info.ones, 1),
        _ => above(value, info.dups, i64::from(value).rem_euclid(2)),
    }
}

/// Q6.1, Q6.2: the samples, completed.
pub fn completed(info: Int32Info, narrow: &[i32], literal: &[u8]) -> Vec<i32> {
    let mut bits = literal.iter().flat_map(|&byte| (0..8).map(move |place| byte / 2_u8.pow(place) % 2));
    let mut complete = |&sample| {
        let own = (0..info.sent_bits).map(|place| i64::from(bits.next().unwrap()) * 2_i64.pow(place));
        let below: i64 = own.sum();
        image(info, (i64::from(sample) * 2_i64.pow(info.sent_bits) + below) as i32)
    };
    narrow.iter().map(&mut complete).collect()
}

/// Q6.3: the samples made narrow, and the bytes that hold their literal bits.
pub fn narrowed(info: Int32Info, wide: &[i32]) -> (Vec<i32>, Vec<u8>) {
    let redundancy = [info.zeros, info.ones, info.dups].into_iter().find(|&count| count != 0).unwrap_or(0);
    let (mut narrow, mut bits) = (vec![], vec![]);
    for &sample in wide {
        let value = i64::from(sample).div_euclid(2_i64.pow(redundancy));
        bits.extend((0..info.sent_bits).map(|place| value.div_euclid(2_i64.pow(place)).rem_euclid(2) as u8));
        narrow.push(value.div_euclid(2_i64.pow(info.sent_bits)) as i32);
    }
    let byte = |bits: &[u8]| bits.iter().rev().fold(0, |byte, bit| 2 * byte + bit);
    (narrow, bits.chunks(8).map(byte).collect())
}

/// How many recordings were compared, with how many samples and literal bits, and how many of them had
/// bits that left the 32.
#[derive(Debug, Default, PartialEq)]
pub struct Tally {
    pub recordings: usize,
    pub samples: usize,
    pub bits: usize,
    pub lost: usize,
}

impl Tally {
    /// Holds both calls to the rules. What was completed is made narrow, into storage with `room` bytes
    /// more, and completed again, whatever stands after its bits (Q6.5).
    pub fn compare(&mut self, info: Int32Info, narrow: &[i32], literal: &[u8], room: usize) {
        let what = format!("{info:?}, {} samples from {:?}", narrow.len(), narrow.first());
        let bits = narrow.len() as u32 * info.sent_bits;
        let mut samples = narrow.to_vec();
        assert_eq!(reassemble_int32(info, &mut samples, literal), Ok(bits), "{what}");
        let wide = completed(info, narrow, literal);
        assert!(samples == wide, "completed: {what}");

        let mut storage = vec![MARK; LITERAL_BYTES_PER_SAMPLE * wide.len() + room];
        assert_eq!(deconstruct_int32(info, &mut samples, &mut storage), Ok(bits), "{what}");
        let (stated, bytes) = narrowed(info, &wide);
        let (written, after) = storage.split_at_mut(bytes.len());
        assert!(samples == stated && written == bytes, "made narrow: {what}");
        assert!(after.iter().all(|&byte| byte == MARK), "after the bits: {what}");

        after.iter_mut().for_each(|byte| *byte = !*byte);
        if bits % 8 != 0 {
            written[(bits / 8) as usize] |= 0xff << (bits % 8);
        }
        assert_eq!(reassemble_int32(info, &mut samples, &storage), Ok(bits), "{what}");
        assert!(samples == wide, "completed again: {what}");
        self.recordings += 1;
        self.samples += wide.len();
        self.bits += bits as usize;
        self.lost += usize::from(stated != narrow);
    }
}
