//! The functions of `include/wavpack_stereo.h`, as C declares them.

#[rustfmt::skip]
unsafe extern "C" {
    pub fn wv_log_word(word: i16, value: *mut i32, value_len: usize) -> u32;
    pub fn wv_term_byte(byte: u8, out: *mut i32, out_len: usize) -> u32;
    pub fn wv_weight_byte(byte: u8, out: *mut i32, out_len: usize) -> u32;
    pub fn wv_entropy(entropy: *const u8, entropy_len: usize, medians: *mut i32, medians_len: usize) -> u32;
    pub fn wv_read(
        entropy: *const u8, entropy_len: usize, payload: *const u8, payload_len: usize, frames: usize,
        samples: *mut i32, samples_len: usize, answer: *mut u32, answer_len: usize,
    ) -> u32;
    pub fn wv_word(
        payload: *const u8, payload_len: usize, state: *mut u32, state_len: usize,
        sample: *mut i32, sample_len: usize, report: *mut u32, report_len: usize,
    ) -> u32;
    pub fn wv_pass(
        term: i8, delta: i32, weight_a: i32, weight_b: i32, seed_a: *const i32, seed_a_len: usize,
        seed_b: *const i32, seed_b_len: usize, pass: *mut i32, pass_len: usize,
    ) -> u32;
    pub fn wv_decorrelate(passes: *mut i32, passes_len: usize, buffer: *mut i32, buffer_len: usize) -> u32;
    pub fn wv_analyse(passes: *mut i32, passes_len: usize, buffer: *mut i32, buffer_len: usize) -> u32;
    pub fn wv_pack(
        residuals: *const i32, residuals_len: usize, entropy: *const u8, entropy_len: usize, frames: usize,
        out: *mut u8, out_len: usize, answer: *mut u32, answer_len: usize,
    ) -> u32;
    pub fn wv_wave_export(
        rate: u32, samples: *const i32, samples_len: usize, out: *mut u8, out_len: usize,
        answer: *mut u32, answer_len: usize,
    ) -> u32;
    pub fn wv_wave_import(
        file: *const u8, file_len: usize, samples: *mut i32, samples_len: usize,
        answer: *mut u32, answer_len: usize,
    ) -> u32;
    pub fn wv_morning_page(
        samples: *const i32, samples_len: usize, threshold: u32, page: *mut u8, page_len: usize,
        answer: *mut u32, answer_len: usize,
    ) -> u32;
    pub fn wv_reassemble_int32(
        sent_bits: u32, zeros: u32, ones: u32, dups: u32, samples: *mut i32, samples_len: usize,
        literal: *const u8, literal_len: usize, answer: *mut u32, answer_len: usize,
    ) -> u32;
    pub fn wv_deconstruct_int32(
        sent_bits: u32, zeros: u32, ones: u32, dups: u32, samples: *mut i32, samples_len: usize,
        literal: *mut u8, literal_len: usize, answer: *mut u32, answer_len: usize,
    ) -> u32;
    pub fn wv_archive_write(
        house: u16, start: u32, issue: u16, payload: *const u8, payload_len: usize,
        out: *mut u8, out_len: usize, answer: *mut u32, answer_len: usize,
    ) -> u32;
    pub fn wv_archive_read(
        file: *const u8, file_len: usize, list: *mut u32, list_len: usize,
        payloads: *mut u8, payloads_len: usize, answer: *mut u32, answer_len: usize,
    ) -> u32;
}
