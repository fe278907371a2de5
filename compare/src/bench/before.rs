//! Reading, and one word a call, by an earlier archive, which the feature `before` links beside
//! today's (`build.rs`). It has no totals: its lists have the slots that are named here.
#![allow(unsafe_code)]

/// The slots of its state.
pub const STATE: usize = 13;

/// The slots of its answer.
const ANSWER: usize = 8;

#[rustfmt::skip]
unsafe extern "C" {
    fn before_wv_read(
        entropy: *const u8, entropy_len: usize, payload: *const u8, payload_len: usize, frames: usize,
        samples: *mut i32, samples_len: usize, answer: *mut u32, answer_len: usize,
    ) -> u32;

    fn before_wv_word(
        payload: *const u8, payload_len: usize, state: *mut u32, state_len: usize,
        sample: *mut i32, sample_len: usize, report: *mut u32, report_len: usize,
    ) -> u32;
}

#[rustfmt::skip]
pub fn read(entropy: &[u8], payload: &[u8], frames: usize, samples: &mut [i32]) -> u32 {
    let mut answer = [0; ANSWER];
    // SAFETY: as `wv_read`, whose other name it is, it reads and writes nothing beyond the elements
    // that it is given and keeps no pointer. All four are slices, whose lengths are given; only
    // `samples`, lent to this call alone, and `answer` are written.
    unsafe {
        before_wv_read(
            entropy.as_ptr(), entropy.len(), payload.as_ptr(), payload.len(), frames,
            samples.as_mut_ptr(), samples.len(), answer.as_mut_ptr(), answer.len(),
        )
    }
}

#[rustfmt::skip]
pub fn word(payload: &[u8], state: &mut [u32], sample: &mut [i32], report: &mut [u32]) -> u32 {
    // SAFETY: as `wv_word`, whose other name it is, it reads and writes nothing beyond the elements
    // that it is given and keeps no pointer. All four are slices, whose lengths are given; the three
    // that are written are lent to this call alone.
    unsafe {
        before_wv_word(
            payload.as_ptr(), payload.len(), state.as_mut_ptr(), state.len(),
            sample.as_mut_ptr(), sample.len(), report.as_mut_ptr(), report.len(),
        )
    }
}
