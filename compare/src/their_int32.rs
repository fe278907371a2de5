//! What the published Rust makes of samples wider than the words, in the terms of the rules
//! (docs/PROVED.md). Its checksum is not used.
use crate::plain_int32::{MAX_FIELD, MAX_SAMPLES, literal_bytes};
use crate::theirs::number;
use reference::int32::{self, deconstruct_int32, reassemble_int32};
use reference::samples::BitReader;
use wavpack_stereo::Int32Info;

/// How many bytes of a payload the checksum has, before the literal bits.
const CHECKSUM: usize = 4;

/// The fields as the Rust holds them; none where one is larger than the rules take.
pub fn published(info: Int32Info) -> Option<int32::Int32Info> {
    let field = |field: u32| u8::try_from(field).ok().filter(|_| field <= MAX_FIELD);
    Some(int32::Int32Info {
        sent_bits: field(info.sent_bits)?,
        zeros: field(info.zeros)?,
        ones: field(info.ones)?,
        dups: field(info.dups)?,
    })
}

/// Reassembly: how many bits it reads, and the samples; or the refusal number. None where the rules
/// have a limit and the Rust has none.
pub fn reassemble(info: Int32Info, samples: &[i32], literal: &[u8]) -> Option<Result<(u32, Vec<i32>), u32>> {
    let info = published(info).filter(|_| samples.len() <= MAX_SAMPLES)?;
    let (mut wide, mut reader) = (samples.to_vec(), BitReader::new(literal));
    let outcome = reassemble_int32(&mut wide, &info, Some(&mut reader));
    Some(outcome.map(|_checksum| (reader.bits_consumed() as u32, wide)).map_err(number))
}

/// Samples taken apart by fields that the Rust chose.
pub struct Apart {
    pub info: Int32Info,
    pub samples: Vec<i32>,
    pub literal: Vec<u8>,
}

/// Deconstruction. The Rust puts a checksum before the literal bits, and after them a zero byte
/// where the number of bytes would else be odd; the rules have neither.
pub fn deconstruct(samples: &[i32]) -> Apart {
    let apart = deconstruct_int32(samples);
    let int32::Int32Info { sent_bits, zeros, ones, dups } = apart.info;
    let info =
        Int32Info { sent_bits: sent_bits.into(), zeros: zeros.into(), ones: ones.into(), dups: dups.into() };
    let mut literal = apart.extension.map_or_else(Vec::new, |payload| payload[CHECKSUM..].to_vec());
    let length = literal_bytes(info, samples.len());
    assert!(literal.len() <= length + 1 && literal[length..].iter().all(|&byte| byte == 0));
    literal.truncate(length);
    Apart { info, samples: apart.reduced, literal }
}
