//! What the published Rust packs, in the terms of the rules (docs/PROVED.md).
use crate::theirs::{MAX_FRAMES, Read, expanded, read};
use reference::error::Error;
use reference::samples::{encode_packed_samples_stereo, encode_packed_samples_stereo_from_entropy};
use wavpack_stereo::{Packed, Slots};

/// Packing accepts residuals from -SPAN up to but without SPAN.
pub const SPAN: i32 = 1_879_048_192;

/// Packing: the seven numbers of its answer and the packed bytes, or the refusal number.
///
/// The Rust pads to an even number of bytes with a zero byte, the rules do not (K8); the bits that
/// were written are those that the Rust reads back.
pub fn pack(
    residuals: &[i32],
    entropy: &[u8],
    frames: usize,
    room: usize,
) -> Result<([u32; 7], Vec<u8>), u32> {
    if frames > MAX_FRAMES {
        return Err(5);
    }
    if residuals.len() != 2 * frames {
        return Err(6);
    }
    let (info, mut medians) = expanded(entropy)?;
    if room < 28 * frames {
        return Err(11);
    }
    if residuals.iter().any(|residual| !(-SPAN..SPAN).contains(residual)) {
        return Err(10);
    }
    let mut bytes = encode_packed_samples_stereo(residuals, &mut medians).expect("the span is encodable");
    // Its entry for an entropy payload packs the same bytes, and refuses a zero right set as mono.
    let whole = encode_packed_samples_stereo_from_entropy(residuals, &info);
    assert_eq!(
        whole,
        if info.is_mono() { Err(Error::InvalidEntropyInfoForStereo) } else { Ok(bytes.clone()) }
    );
    let Read { refusal, answer: [bits_written, ..], samples, .. } = read(entropy, &bytes, frames, 2 * frames);
    assert!(refusal == 0 && samples == residuals, "the Rust reads back what it wrote");
    let packed = Packed { bits_written, medians: medians.map(|set| set.values) };
    let length = packed.bytes();
    assert!(bytes.len() == length.next_multiple_of(2) && bytes[length..].iter().all(|&byte| byte == 0));
    bytes.truncate(length);
    Ok((packed.slots(), bytes))
}
