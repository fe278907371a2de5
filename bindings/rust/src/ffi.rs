//! The C interface as it is: one function for each of `include/wavpack_stereo.h`, which documents
//! their slots.
//!
//! The functions of the crate's root are made of these and are the ones to call. These accept lists
//! of any length and answer a number, 0 for accepted; with the feature `ffi` they are public, so
//! that tests can lend lists with too few slots or too many. What each writes when it refuses
//! stands in the header too: `read` then writes its answer, `word` sample 0 and report 0, 0, `pack` an
//! answer of zeros, and `archive_read` the number of a bad block.
//!
//! All unsafe code of the crate is in this file and in `declared`. It rests on two things. The header
//! promises that a function reads and writes nothing beyond the elements that it is given, and keeps no
//! pointer. And a slice is not null, is aligned, has as many elements as its length says, and where it is
//! written is lent to this call alone. These two together are "list" in the comments below.
use crate::{Delta, Int32Info, Pass, Weight};

mod declared;
use declared::*;

/// `wv_log_word`: 1 slot.
pub fn log_word(word: i16, value: &mut [i32]) -> u32 {
    // SAFETY: `value` is a list.
    unsafe { wv_log_word(word, value.as_mut_ptr(), value.len()) }
}

/// `wv_term_byte`: 2 slots.
pub fn term_byte(byte: u8, out: &mut [i32]) -> u32 {
    // SAFETY: `out` is a list.
    unsafe { wv_term_byte(byte, out.as_mut_ptr(), out.len()) }
}

/// `wv_weight_byte`: 1 slot.
pub fn weight_byte(byte: u8, out: &mut [i32]) -> u32 {
    // SAFETY: `out` is a list.
    unsafe { wv_weight_byte(byte, out.as_mut_ptr(), out.len()) }
}

/// `wv_entropy`: 6 slots.
pub fn entropy(entropy: &[u8], medians: &mut [i32]) -> u32 {
    // SAFETY: both are lists; only `medians`, lent to this call alone, is written.
    unsafe { wv_entropy(entropy.as_ptr(), entropy.len(), medians.as_mut_ptr(), medians.len()) }
}

/// `wv_read`: an answer of 10 slots.
#[rustfmt::skip]
pub fn read(entropy: &[u8], payload: &[u8], frames: usize, samples: &mut [i32], answer: &mut [u32]) -> u32 {
    // SAFETY: all four are lists, whatever `frames` is; only `samples` and `answer`, each lent to
    // this call alone, are written.
    unsafe {
        wv_read(
            entropy.as_ptr(), entropy.len(), payload.as_ptr(), payload.len(), frames,
            samples.as_mut_ptr(), samples.len(), answer.as_mut_ptr(), answer.len(),
        )
    }
}

/// `wv_word`: a state of 15 slots, a sample of 1, a report of 2.
#[rustfmt::skip]
pub fn word(payload: &[u8], state: &mut [u32], sample: &mut [i32], report: &mut [u32]) -> u32 {
    // SAFETY: all four are lists; only the last three, each lent to this call alone, are written.
    unsafe {
        wv_word(
            payload.as_ptr(), payload.len(), state.as_mut_ptr(), state.len(),
            sample.as_mut_ptr(), sample.len(), report.as_mut_ptr(), report.len(),
        )
    }
}

/// `wv_pass`: a pass of 20 slots.
#[rustfmt::skip]
pub fn pass(term: i8, delta: Delta, weights: [Weight; 2], seeds: [&[i32]; 2], pass: &mut [i32]) -> u32 {
    let ([weight_a, weight_b], [seed_a, seed_b]) = (weights, seeds);
    // SAFETY: the seeds and `pass` are lists; only `pass`, lent to this call alone, is written.
    unsafe {
        wv_pass(
            term, delta.0, weight_a.0, weight_b.0, seed_a.as_ptr(), seed_a.len(),
            seed_b.as_ptr(), seed_b.len(), pass.as_mut_ptr(), pass.len(),
        )
    }
}

/// `wv_decorrelate`: 20 slots for each pass.
pub fn decorrelate(passes: &mut [i32], buffer: &mut [i32]) -> u32 {
    // SAFETY: both are lists, each lent to this call alone.
    unsafe { wv_decorrelate(passes.as_mut_ptr(), passes.len(), buffer.as_mut_ptr(), buffer.len()) }
}

/// `wv_analyse`: 20 slots for each pass.
pub fn analyse(passes: &mut [i32], buffer: &mut [i32]) -> u32 {
    // SAFETY: both are lists, each lent to this call alone.
    unsafe { wv_analyse(passes.as_mut_ptr(), passes.len(), buffer.as_mut_ptr(), buffer.len()) }
}

/// `wv_pack`: an answer of 7 slots.
#[rustfmt::skip]
pub fn pack(residuals: &[i32], entropy: &[u8], frames: usize, out: &mut [u8], answer: &mut [u32]) -> u32 {
    // SAFETY: all four are lists, whatever `frames` is; only `out` and `answer`, each lent to this
    // call alone, are written.
    unsafe {
        wv_pack(
            residuals.as_ptr(), residuals.len(), entropy.as_ptr(), entropy.len(), frames,
            out.as_mut_ptr(), out.len(), answer.as_mut_ptr(), answer.len(),
        )
    }
}

/// `wv_wave_export`: an answer of 1 slot.
#[rustfmt::skip]
pub fn wave_export(rate: u32, samples: &[i32], out: &mut [u8], answer: &mut [u32]) -> u32 {
    // SAFETY: all three are lists, whatever `rate` is; only `out` and `answer`, each lent to this
    // call alone, are written.
    unsafe {
        wv_wave_export(
            rate, samples.as_ptr(), samples.len(), out.as_mut_ptr(), out.len(),
            answer.as_mut_ptr(), answer.len(),
        )
    }
}

/// `wv_wave_import`: an answer of 2 slots.
#[rustfmt::skip]
pub fn wave_import(file: &[u8], samples: &mut [i32], answer: &mut [u32]) -> u32 {
    // SAFETY: all three are lists; only `samples` and `answer`, each lent to this call alone, are
    // written.
    unsafe {
        wv_wave_import(
            file.as_ptr(), file.len(), samples.as_mut_ptr(), samples.len(),
            answer.as_mut_ptr(), answer.len(),
        )
    }
}

/// `wv_morning_page`: an answer of 1 slot.
#[rustfmt::skip]
pub fn morning_page(samples: &[i32], threshold: u32, page: &mut [u8], answer: &mut [u32]) -> u32 {
    // SAFETY: all three are lists, whatever `threshold` is; only `page` and `answer`, each lent to
    // this call alone, are written.
    unsafe {
        wv_morning_page(
            samples.as_ptr(), samples.len(), threshold, page.as_mut_ptr(), page.len(),
            answer.as_mut_ptr(), answer.len(),
        )
    }
}

/// `wv_reassemble_int32`: an answer of 1 slot.
#[rustfmt::skip]
pub fn reassemble_int32(info: Int32Info, samples: &mut [i32], literal: &[u8], answer: &mut [u32]) -> u32 {
    let Int32Info { sent_bits, zeros, ones, dups } = info;
    // SAFETY: all three are lists, whatever the fields are; only `samples` and `answer`, each lent to
    // this call alone, are written.
    unsafe {
        wv_reassemble_int32(
            sent_bits, zeros, ones, dups, samples.as_mut_ptr(), samples.len(),
            literal.as_ptr(), literal.len(), answer.as_mut_ptr(), answer.len(),
        )
    }
}

/// `wv_deconstruct_int32`: an answer of 1 slot.
#[rustfmt::skip]
pub fn deconstruct_int32(
    info: Int32Info, samples: &mut [i32], literal: &mut [u8], answer: &mut [u32],
) -> u32 {
    let Int32Info { sent_bits, zeros, ones, dups } = info;
    // SAFETY: all three are lists, each lent to this call alone, whatever the fields are.
    unsafe {
        wv_deconstruct_int32(
            sent_bits, zeros, ones, dups, samples.as_mut_ptr(), samples.len(),
            literal.as_mut_ptr(), literal.len(), answer.as_mut_ptr(), answer.len(),
        )
    }
}

/// `wv_archive_write`: an answer of 1 slot.
#[rustfmt::skip]
pub fn archive_write(
    house: u16, start: u32, issue: u16, payload: &[u8], out: &mut [u8], answer: &mut [u32],
) -> u32 {
    // SAFETY: all three are lists, whatever the numbers are; only `out` and `answer`, each lent to
    // this call alone, are written.
    unsafe {
        wv_archive_write(
            house, start, issue, payload.as_ptr(), payload.len(), out.as_mut_ptr(), out.len(),
            answer.as_mut_ptr(), answer.len(),
        )
    }
}

/// `wv_archive_read`: 4 numbers for each recording in `list`, an answer of 2 slots.
#[rustfmt::skip]
pub fn archive_read(file: &[u8], list: &mut [u32], payloads: &mut [u8], answer: &mut [u32]) -> u32 {
    // SAFETY: all four are lists; only the last three, each lent to this call alone, are written.
    unsafe {
        wv_archive_read(
            file.as_ptr(), file.len(), list.as_mut_ptr(), list.len(),
            payloads.as_mut_ptr(), payloads.len(), answer.as_mut_ptr(), answer.len(),
        )
    }
}

/// The slots of a list of passes, where they stand.
pub(crate) fn slots(passes: &mut [Pass]) -> &mut [i32] {
    // SAFETY: `Pass` is transparent over its 20 slots, so that the passes are as many numbers
    // without gaps, and any numbers are a pass. The slice that is given back is the only way to
    // them as long as `passes` is lent.
    unsafe { core::slice::from_raw_parts_mut(passes.as_mut_ptr().cast(), passes.len() * Pass::SLOTS) }
}
