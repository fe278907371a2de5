//! Readings and packings that are refused, with marks in what they are lent.
use wavpack_stereo::{Reading, Refusal, pack, read};

/// A reading into `length` marks that is refused before any word.
pub fn unread(entropy: &[u8], payload: &[u8], frames: usize, length: usize) -> Refusal {
    let mut samples = vec![77; length];
    let error = read(entropy, payload, frames, &mut samples).unwrap_err();
    assert_eq!(error.reading, Reading::default());
    assert!(samples.iter().all(|&sample| sample == 77));
    error.refusal
}

/// A packing into `room` marks that is refused.
pub fn unpacked(residuals: &[i32], entropy: &[u8], frames: usize, room: usize) -> Refusal {
    let mut out = vec![77; room];
    let refusal = pack(residuals, entropy, frames, &mut out).unwrap_err();
    assert!(out.iter().all(|&byte| byte == 77));
    refusal
}
