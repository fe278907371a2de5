//! Takes the large integers of real files (`data`, whose README describes each) apart again, to the
//! literal bits and the words that the files hold, and flips every bit that their low bits come from.
use std::collections::BTreeMap;
use wavpack_stereo::{
    BYTES_PER_FRAME, Int32Info, Refusal, analyse, bytes_for_bits, deconstruct_int32, pack, reassemble_int32,
};

#[path = "../examples/wv_block/mod.rs"]
mod wv_block;
use wv_block::samples::{JOINT, decode, decode_words, fields};
use wv_block::{Block, Parts, Why, parts, passes, take_block};

/// Every file with large integers that is decoded, and the fields of its blocks: sent_bits, zeros,
/// ones and dups. One block has no large integers.
const FILES: [(&str, &[Option<[u32; 4]>]); 8] = [
    ("large_blocks.wv", &BLOCKS),
    ("large_both.wv", &[Some([5, 0, 0, 3])]),
    ("large_dups.wv", &[Some([0, 0, 0, 8])]),
    ("large_joint.wv", &[Some([8, 0, 0, 0])]),
    ("large_literal.wv", &[Some([8, 0, 0, 0])]),
    ("large_ones.wv", &[Some([0, 0, 8, 0])]),
    ("large_zeros.wv", &[Some([0, 8, 0, 0])]),
    ("wide.wv", &[Some([0, 1, 0, 0])]),
];
const BLOCKS: [Option<[u32; 4]>; 7] = [
    Some([5, 0, 0, 0]),
    Some([1, 7, 0, 0]),
    Some([0, 31, 0, 0]),
    Some([0, 0, 31, 0]),
    Some([0, 0, 0, 30]),
    None,
    Some([3, 0, 0, 0]),
];

fn good<T>(result: Result<T, Why>) -> T {
    result.unwrap_or_else(|why| panic!("{why}"))
}

/// Calls for every block with large integers, with its bytes, and sees that no frame is missing.
fn each_block(mut call: impl FnMut(&[u8], &Block<'_>, &Parts<'_>, Int32Info)) {
    for (name, expected) in FILES {
        let file = std::fs::read(format!("{}/tests/data/{name}", env!("CARGO_MANIFEST_DIR"))).expect(name);
        let (mut rest, mut found, mut left) = (&file[..], Vec::new(), None);
        while !rest.is_empty() {
            let from = rest;
            let block = take_block(&mut rest).expect(name);
            left = Some(left.unwrap_or(block.total) - block.frames);
            assert_eq!(Some(block.total - block.first - block.frames), left, "{name}");
            let parts = good(parts(&block));
            let info = good(fields(&block, &parts));
            found.push(info.map(|info| [info.sent_bits, info.zeros, info.ones, info.dups]));
            if let Some(info) = info {
                call(&from[..from.len() - rest.len()], &block, &parts, info);
            }
        }
        assert_eq!((&found[..], left), (expected, Some(0)), "{name}");
    }
}

/// Holds bits that were written to those of a file, which fills its last word with ones.
fn assert_same_bits(written: &[u8], bits: u32, stored: &[u8]) {
    let whole = (bits / 8) as usize;
    assert_eq!(written[..whole], stored[..whole]);
    if bits % 8 > 0 {
        assert_eq!(written[whole], stored[whole] & ((1 << (bits % 8)) - 1));
    }
    assert_eq!(stored.len(), bytes_for_bits(bits).next_multiple_of(2));
}

/// Whether a sample is a shorter one above any literal bits and the low bits that the fields give.
fn made_of(sample: i32, short: i32, info: Int32Info) -> bool {
    let count = info.zeros + info.ones + info.dups;
    let (above, mask) = (sample >> count, ((1_i64 << count) - 1) as i32);
    let low = if info.ones > 0 || info.dups > 0 && above & 1 == 1 { mask } else { 0 };
    above >> info.sent_bits == short && sample & mask == low
}

#[test]
fn samples_are_those_of_the_words_with_low_bits() {
    each_block(|_, block, parts, info| {
        let (short, whole) = (good(decode_words(block, parts)), good(decode(block)));
        assert!(whole.iter().zip(short).all(|(&sample, short)| made_of(sample, short, info)));
    });
}

#[test]
fn low_bits_come_out_as_they_are_stored() {
    each_block(|_, block, parts, info| {
        let (short, whole) = (good(decode_words(block, parts)), good(decode(block)));
        let (mut samples, mut literal) = (whole.clone(), vec![0xa5; 4 * whole.len()]);
        let bits = whole.len() as u32 * info.sent_bits;
        assert_eq!(deconstruct_int32(info, &mut samples, &mut literal), Ok(bits));
        assert_eq!(samples, short);
        assert_same_bits(&literal, bits, parts.low_bits.get(4..).unwrap_or(&[]));
        assert!(literal[bytes_for_bits(bits)..].iter().all(|&byte| byte == 0xa5));
        assert_eq!(reassemble_int32(info, &mut samples, &literal), Ok(bits));
        assert_eq!(samples, whole);
    });
}

#[test]
fn samples_pack_to_the_words_that_are_stored() {
    each_block(|_, block, parts, info| {
        let mut samples = good(decode(block));
        let (mut literal, mut out) =
            (vec![0; 4 * samples.len()], vec![0; BYTES_PER_FRAME * samples.len() / 2]);
        deconstruct_int32(info, &mut samples, &mut literal).expect("samples with these low bits");
        if block.flags & JOINT != 0 {
            for frame in samples.chunks_exact_mut(2) {
                frame[0] -= frame[1];
                frame[1] += frame[0] >> 1;
            }
        }
        analyse(&mut good(passes(parts)), &mut samples).expect("valid passes");
        let packed =
            pack(&samples, parts.entropy, samples.len() / 2, &mut out).expect("residuals in their span");
        assert_same_bits(&out, packed.bits_written, parts.payload);
    });
}

#[test]
fn too_few_literal_bits_are_refused() {
    each_block(|_, block, parts, info| {
        let short = good(decode_words(block, parts));
        let bytes = bytes_for_bits(short.len() as u32 * info.sent_bits);
        for count in 0..bytes {
            let mut samples = short.clone();
            let literal = &parts.low_bits[4..4 + count];
            assert_eq!(reassemble_int32(info, &mut samples, literal), Err(Refusal::Truncated));
            assert_eq!(samples, short);
        }
    });
}

#[test]
fn other_low_bits_are_refused() {
    each_block(|_, block, _, info| {
        let whole = good(decode(block));
        let mut literal = vec![0xa5; 4 * whole.len()];
        // The bit above repeated ones is bound to them too.
        let bound = info.zeros + info.ones + info.dups + u32::from(info.dups > 0);
        for (place, bit) in (0..whole.len()).zip((0..bound).cycle()) {
            let mut samples = whole.clone();
            samples[place] ^= 1 << bit;
            let other = samples.clone();
            assert_eq!(deconstruct_int32(info, &mut samples, &mut literal), Err(Refusal::NotReinsertable));
            assert_eq!(samples, other);
        }
        assert!(literal.iter().all(|&byte| byte == 0xa5));
    });
}

/// What finds a block that is damaged.
fn found_by(why: Why) -> String {
    match why {
        Why::Holds(what) => what.to_string(),
        Why::Refused(refusal) => format!("refusal {}", refusal.number()),
        Why::Damaged { what, .. } => what.to_string(),
    }
}

#[test]
fn every_flipped_bit_is_found() {
    let mut found = BTreeMap::new();
    each_block(|bytes, _, parts, _| {
        for (name, part) in [("fields", parts.fields), ("low bits", parts.low_bits)] {
            for bit in 0..8 * part.len() {
                let mut copy = bytes.to_vec();
                let at = &raw const part[bit / 8] as usize - bytes.as_ptr() as usize;
                copy[at] ^= 1 << (bit % 8);
                let block = take_block(&mut &copy[..]).expect("a block");
                let by = decode(&block).map_or_else(found_by, |_| "nothing".to_string());
                *found.entry((name, by)).or_insert(0) += 1;
            }
        }
    });
    let found: Vec<(&str, &str, usize)> =
        found.iter().map(|((name, by), count)| (*name, &by[..], *count)).collect();
    let expected = [
        // Fields of blocks without literal bits, and fields after the first redundancy that counts.
        ("fields", "checksum of the bytes", 115),
        ("fields", "extension checksum", 89),
        ("fields", "refusal 15", 156),
        ("fields", "refusal 3", 56),
        // Bits after the literal ones.
        ("low bits", "checksum of the bytes", 16),
        ("low bits", "extension checksum", 7_216),
    ];
    assert_eq!(found, expected);
}
