//! Sound files, stated from their rules alone (Q1.1 to Q1.4 of docs/PROVED.md): the published Rust
//! has none.
use std::ops::RangeInclusive;
use wavpack_stereo::Wave;

/// The limits of the rules.
pub const MAX_SAMPLES: usize = 262_144;
pub const MAX_BYTES: usize = 524_332;
pub const RATES: RangeInclusive<u32> = 1..=192_000;
pub const SPAN: RangeInclusive<i32> = -32_768..=32_767;

/// How many bytes the header has.
pub const HEADER: usize = 44;

/// A field of the header: how many bytes it has, and the number in them, low byte first. Letters
/// are such a number too.
pub type Field = (usize, u32);

/// The header's fields for a rate and a number of bytes after it; what the rules refuse is kept to
/// 32 bits.
#[rustfmt::skip]
pub fn fields(rate: u32, data: u32) -> [Field; 13] {
    let letters = |four: &[u8; 4]| (4, u32::from_le_bytes(*four));
    [
        letters(b"RIFF"), (4, data.wrapping_add(36)), letters(b"WAVE"),
        // Format, channels, rate, bytes a second, bytes a frame, bits a sample.
        letters(b"fmt "), (4, 16), (2, 1), (2, 2), (4, rate), (4, rate.wrapping_mul(4)), (2, 4), (2, 16),
        letters(b"data"), (4, data),
    ]
}

/// The bytes of fields, one after the other.
pub fn laid(fields: &[Field]) -> Vec<u8> {
    fields.iter().flat_map(|&(bytes, value)| value.to_le_bytes().into_iter().take(bytes)).collect()
}

/// A file: the header for a rate, and these bytes after it.
pub fn file(rate: u32, data: &[u8]) -> Vec<u8> {
    [&laid(&fields(rate, data.len() as u32)), data].concat()
}

/// How many bytes a file with so many samples has.
pub fn file_bytes(samples: usize) -> usize {
    HEADER + 2 * samples
}

/// Export: the file, or the refusal number.
pub fn export(rate: u32, samples: &[i32], room: usize) -> Result<Vec<u8>, u32> {
    if samples.len() > MAX_SAMPLES {
        return Err(5);
    }
    if samples.len() % 2 == 1 {
        return Err(6);
    }
    if room < file_bytes(samples.len()) {
        return Err(11);
    }
    if !RATES.contains(&rate) {
        return Err(14);
    }
    if !samples.iter().all(|sample| SPAN.contains(sample)) {
        return Err(13);
    }
    let data: Vec<u8> = samples.iter().flat_map(|&sample| (sample as i16).to_le_bytes()).collect();
    Ok(file(rate, &data))
}

/// Import: its answer and the samples, or the refusal number.
pub fn import(bytes: &[u8], room: usize) -> Result<(Wave, Vec<i32>), u32> {
    if bytes.len() > MAX_BYTES {
        return Err(5);
    }
    let (header, data) = bytes.split_at_checked(HEADER).ok_or(14_u32)?;
    // The rate stands after seven fields of 24 bytes.
    let rate = u32::from_le_bytes([header[24], header[25], header[26], header[27]]);
    if !RATES.contains(&rate) || data.len() % 4 != 0 || bytes != file(rate, data) {
        return Err(14);
    }
    let samples: Vec<i32> =
        data.chunks_exact(2).map(|pair| i16::from_le_bytes([pair[0], pair[1]]).into()).collect();
    if room < samples.len() {
        return Err(11);
    }
    Ok((Wave { rate, written: samples.len() }, samples))
}
