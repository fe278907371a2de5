/* The C interface of the stereo WavPack decoder and writer. Link with libwavpack_stereo.a.
 *
 * Every function answers WV_ACCEPTED or the number of a refusal; `wv_refusal_text` gives its wording. Each
 * function below lists its refusals in the order in which it tests. The rules are the rows X1 to X9, Q1.3,
 * Q1.4, Q2.2, Q5.6, Q6.6, Q7.1 to Q7.3, Q8.1 to Q8.5, Q8.7, Q9.6 and Q9.10 of docs/PROVED.md.
 * wavpack_stereo_limits.h has the limits, sizes and numbers of slots.
 *
 * A list is a pointer to its first element and its number of elements. A list of 0 elements still needs a
 * pointer that is not null and is aligned for its type. A function reads and writes nothing beyond the
 * elements that it is given, and no list that it writes may overlap another. It keeps no pointer and uses
 * no storage of its own but the stack, so that calls may run at the same time.
 *
 * A list that a function fills has slots, in the order given below, from the first element on. A list with
 * fewer elements than slots is refused with WV_LIST_LENGTH before anything is written. Elements after the
 * slots keep their values. On any other refusal `wv_read`, `wv_word`, `wv_pack` and `wv_archive_read` write
 * what is said there, and every other function leaves all lists as they were.
 *
 * docs/WV_FILES.md shows how a block of a real file is decoded with these functions; examples/c has
 * programs that do it.
 */
#ifndef WAVPACK_STEREO_H
#define WAVPACK_STEREO_H

#include <stddef.h>
#include <stdint.h>
#include "wavpack_stereo_limits.h"
#include "wavpack_stereo_refusals.h"

#ifdef __cplusplus
extern "C" {
#endif

/* The version of this header, and of the Rust bindings. */
#define WV_VERSION "0.4.0"
#define WV_VERSION_MAJOR 0
#define WV_VERSION_MINOR 4
#define WV_VERSION_PATCH 0

/* The signed 32-bit value of a log word.
 * value: its value, -2,143,289,344 to 2,143,289,344.
 * Refuses WV_LIST_LENGTH, then WV_LOG_WORD_OUT_OF_REACH, with value as it was. */
uint32_t wv_log_word(int16_t word, int32_t *value, size_t value_len);

/* The term and the delta of a term byte. The term may be an invalid one.
 * out: term (-5 to 26), delta (0 to 7).
 * Refuses WV_LIST_LENGTH, with out as it was. */
uint32_t wv_term_byte(uint8_t byte, int32_t *out, size_t out_len);

/* The weight of a weight byte.
 * out: weight (-1024 to 1024).
 * Refuses WV_LIST_LENGTH, with out as it was. */
uint32_t wv_weight_byte(uint8_t byte, int32_t *out, size_t out_len);

/* The signed medians of an entropy payload of 6 bytes (mono: the right ones are 0) or 12 (stereo).
 * medians: left 0, 1, 2, right 0, 1, 2.
 * Refuses WV_LIST_LENGTH, then WV_ENTROPY_LENGTH, then WV_LOG_WORD_OUT_OF_REACH for one of its three or six
 * log words, with medians as it was. */
uint32_t wv_entropy(const uint8_t *entropy, size_t entropy_len, int32_t *medians, size_t medians_len);

/* Reads the packed payload of a stereo block: `frames` frames, left then right, into samples, which has 2
 * times frames elements. What it reads are residuals where the block has passes (`wv_decorrelate`). An
 * entropy payload of 12 bytes is stereo whatever it holds: three right medians of 0 are a right channel
 * that starts silent.
 * answer: bits used, left medians 0, 1, 2, right medians 0, 1, 2 after the last word, samples written, bits
 *   read for left, bits read for right. The last two are the totals that `wv_word` has after as many words;
 *   together they are the bits used.
 * Refuses WV_LIST_LENGTH for answer, with nothing written.
 * Then refuses WV_TOO_LARGE, WV_LIST_LENGTH for samples, WV_ENTROPY_LENGTH, WV_LOG_WORD_OUT_OF_REACH and
 * WV_NOT_STEREO, with the slots of answer 0 and samples as it was.
 * Then, in a word, refuses WV_TRUNCATED or WV_END_OF_STREAM: answer reports the words before it, their
 * samples are in samples, and after them samples holds what it held. */
uint32_t wv_read(const uint8_t *entropy, size_t entropy_len, const uint8_t *payload, size_t payload_len,
                 size_t frames, int32_t *samples, size_t samples_len, uint32_t *answer, size_t answer_len);

/* Reads one word of a packed payload. The caller holds the state: before the first word the medians of the
 * entropy payload (`wv_entropy`), and 0 in every other slot.
 * state: place (how many bits stand before the word), next_channel (0 left, 1 right), last_zero, last_one,
 *   zero_run_pending, run_break, ever_took_zero_run, left medians 0, 1, 2, right medians 0, 1, 2, bits read
 *   for left, bits read for right; before the word, and then after it. A flag is set when it is not 0, and
 *   is written as 0 or 1. The last two slots are totals: the bits from the place before the word to the
 *   place after it, those of a run length among them, are added to the total of the channel that was due;
 *   a zero out of a run adds nothing.
 * sample: the sample.
 * report: 0 for none, as a zero out of a run has it, or 1, 2, 3, 4 for the zones 0, 1, 2 and the overflow
 *   zone; then the count of the word, 0 for none.
 * Refuses WV_LIST_LENGTH for the slots, with nothing written.
 * Then refuses WV_TOO_LARGE for the payload, WV_INVALID_CHANNEL for next_channel or for totals that
 * together exceed the place, WV_TRUNCATED or WV_END_OF_STREAM, with sample 0, report 0, 0 and state as it
 * was. */
uint32_t wv_word(const uint8_t *payload, size_t payload_len, uint32_t *state, size_t state_len,
                 int32_t *sample, size_t sample_len, uint32_t *report, size_t report_len);

/* Makes a pass. Any delta and weights are accepted. An empty seed means zeros, except that a cross term
 * with an A seed needs a B seed.
 * pass: term, delta, weight of A, weight of B, history of A (8), history of B (8).
 * Refuses WV_LIST_LENGTH, then WV_INVALID_TERM, then WV_SEED_TOO_SHORT for A or B, with pass as it was. */
uint32_t wv_pass(int8_t term, int32_t delta, int32_t weight_a, int32_t weight_b, const int32_t *seed_a,
                 size_t seed_a_len, const int32_t *seed_b, size_t seed_b_len, int32_t *pass, size_t pass_len);

/* Decorrelation: turns the residuals of buffer, left then right, into samples, by each pass in turn. An odd
 * last element keeps its value.
 * passes: the slots of `wv_pass` for each pass, one pass after the other; the passes before the call, and
 *   then after it.
 * Refuses WV_LIST_LENGTH for a passes_len that is no multiple of WV_PASS_SLOTS; then WV_TOO_LARGE,
 * WV_TOO_MANY_PASSES and WV_INVALID_TERM, also for a term outside 8 bits; with both lists as they were.
 * A list of passes may be cut in two: accepted calls by the first part and then by the second leave in
 * buffer and in the passes what one call by the whole list leaves, where it has at most WV_MAX_PASSES.
 * A buffer may be cut after any multiple of eight frames, and where no pass has a term 1 to 8 after any
 * whole frame: accepted calls over part after part, with the passes as each call leaves them, leave what one
 * call over the whole leaves, and together the parts may have over WV_MAX_ELEMENTS. A cut elsewhere gives
 * other samples. */
uint32_t wv_decorrelate(int32_t *passes, size_t passes_len, int32_t *buffer, size_t buffer_len);

/* Analysis, the inverse: turns the samples of buffer into the residuals that decorrelate to them, and
 * leaves the passes as decorrelation would. Refuses as `wv_decorrelate` does.
 * Of a list that is cut in two the second part comes first: accepted calls by the second part and then by
 * the first leave what one call by the whole list leaves, where it has at most WV_MAX_PASSES.
 * A buffer may be cut as for `wv_decorrelate`, and here too its first part comes first. */
uint32_t wv_analyse(int32_t *passes, size_t passes_len, int32_t *buffer, size_t buffer_len);

/* Packs the residuals of a stereo block: `frames` frames, left then right, 2 times frames residuals, into
 * out, which has at least WV_BYTES_PER_FRAME for each frame. Reading the bytes that hold the bits written,
 * with the same entropy payload and frames, gives the residuals.
 * out: the packed bytes from the first on; the spare bits of the last one are 0, and bytes after it keep
 *   their values.
 * answer: bits written, left medians 0, 1, 2, right medians 0, 1, 2 after the last word.
 * Refuses WV_LIST_LENGTH for answer, with nothing written.
 * Then refuses WV_TOO_LARGE, WV_LIST_LENGTH for residuals, WV_ENTROPY_LENGTH, WV_LOG_WORD_OUT_OF_REACH,
 * WV_NOT_STEREO, WV_OUTPUT_TOO_SHORT and WV_RESIDUAL_OUT_OF_SPAN, with the slots of answer 0 and out as it
 * was. */
uint32_t wv_pack(const int32_t *residuals, size_t residuals_len, const uint8_t *entropy, size_t entropy_len,
                 size_t frames, uint8_t *out, size_t out_len, uint32_t *answer, size_t answer_len);

/* Writes samples, left then right, as a sound file: RIFF WAVE of format 1, two channels, 16 bits and `rate`
 * frames a second, WV_MIN_RATE to WV_MAX_RATE; a header of WV_WAVE_HEADER_BYTES, then each sample in 2
 * bytes, the low one first. `wv_wave_import` gives rate and samples back.
 * out: the file from the first byte on, the header and 2 bytes for each sample; bytes after it keep their
 *   values.
 * answer: bytes written.
 * Refuses WV_LIST_LENGTH for answer; then WV_TOO_LARGE for over WV_MAX_ELEMENTS samples, WV_LIST_LENGTH for
 * an odd number of them, WV_OUTPUT_TOO_SHORT, WV_NOT_WAVE for the rate and WV_SAMPLE_OUT_OF_SPAN; with both
 * lists as they were. */
uint32_t wv_wave_export(uint32_t rate, const int32_t *samples, size_t samples_len, uint8_t *out,
                        size_t out_len, uint32_t *answer, size_t answer_len);

/* Reads a sound file, exactly as `wv_wave_export` writes it: no other header, chunk, length or rate is
 * accepted, and no byte after the samples.
 * samples: the samples, left then right, one for each 2 bytes after the header; elements after them keep
 *   their values.
 * answer: rate, samples written.
 * Refuses WV_LIST_LENGTH for answer; then WV_TOO_LARGE for over WV_MAX_WAVE_BYTES, WV_NOT_WAVE, and
 * WV_OUTPUT_TOO_SHORT where samples has fewer elements than the file has samples; with both lists as they
 * were. */
uint32_t wv_wave_import(const uint8_t *file, size_t file_len, int32_t *samples, size_t samples_len,
                        uint32_t *answer, size_t answer_len);

/* Writes the morning page of samples, left then right: a line of text for each block of WV_LINE_FRAMES
 * frames, the last for the frames that are left, and none for no frames. A line has the number of its block
 * from 0 (6 wide), left peak (11), right peak (11), left clicks (8) and right clicks (8), right-aligned
 * with spaces, and a newline: WV_LINE_BYTES in all.
 * A peak is the largest distance from 0 in the block, at most 2,147,483,648. A click is a sample whose
 * distance from 0 exceeds `threshold` while that of the sample before it in its channel, also across
 * blocks, did not; before the first sample the distance is 0. So the click columns add up to the clicks of
 * the whole recording. Any threshold is accepted.
 * page: the lines from the first byte on, WV_PAGE_BYTES of the frames, without a 0 at their end; bytes
 *   after them keep their values.
 * answer: bytes written.
 * Refuses WV_LIST_LENGTH for answer; then WV_TOO_LARGE for over WV_MAX_ELEMENTS samples, WV_LIST_LENGTH for
 * an odd number of them, and WV_OUTPUT_TOO_SHORT for a shorter page; with both lists as they were. */
uint32_t wv_morning_page(const int32_t *samples, size_t samples_len, uint32_t threshold, uint8_t *page,
                         size_t page_len, uint32_t *answer, size_t answer_len);

/* Completes samples that are wider than the words, each in turn: it is shifted left by sent_bits, with the
 * next sent_bits bits of literal below it; then the first of zeros, ones and dups that is not 0 puts as
 * many bits below that: 0s, 1s, or copies of the lowest bit. What is shifted out of 32 bits is lost. Each
 * field is 0 to WV_MAX_FIELD, in any combination.
 * literal: the bits of each sample, the lowest first, in the bits of the bytes, the lowest first; what
 *   stands after the bits that are needed is not read.
 * answer: bits read, sent_bits for each sample.
 * Refuses WV_LIST_LENGTH for answer; then WV_FIELD_ABOVE_31, WV_TOO_LARGE for over WV_MAX_ELEMENTS samples
 * and WV_TRUNCATED for too few literal bits; with all lists as they were. */
uint32_t wv_reassemble_int32(uint32_t sent_bits, uint32_t zeros, uint32_t ones, uint32_t dups,
                             int32_t *samples, size_t samples_len, const uint8_t *literal, size_t literal_len,
                             uint32_t *answer, size_t answer_len);

/* The way back, which makes samples narrow: each is shifted right by the first of zeros, ones and dups that
 * is not 0; then its lowest sent_bits bits go into literal, and it is shifted right by sent_bits. Both
 * shifts keep the sign. `wv_reassemble_int32` by the same fields gives the samples back.
 * literal: at least WV_LITERAL_BYTES_PER_SAMPLE for each; the bits from the first byte on, as
 *   `wv_reassemble_int32` reads them; the spare bits of the last byte are 0, and bytes after it keep their
 *   values.
 * answer: bits written, sent_bits for each sample.
 * Refuses WV_LIST_LENGTH for answer; then WV_FIELD_ABOVE_31, WV_TOO_LARGE for over WV_MAX_ELEMENTS samples,
 * WV_OUTPUT_TOO_SHORT for literal, and WV_NOT_REINSERTABLE for a sample that does not end in the 0s, 1s or
 * copies that zeros, ones or dups put in; with all lists as they were. */
uint32_t wv_deconstruct_int32(uint32_t sent_bits, uint32_t zeros, uint32_t ones, uint32_t dups,
                              int32_t *samples, size_t samples_len, uint8_t *literal, size_t literal_len,
                              uint32_t *answer, size_t answer_len);

/* Writes a recording for an archive, a file of blocks of WV_ARCHIVE_BLOCK_BYTES: an archive is what this
 * function writes of each of its recordings, one after the other, in any order.
 * A block has its number (2 bytes), how many data bytes it uses, 1 to WV_ARCHIVE_DATA_BYTES (2), the data
 * with zeros after the used bytes, and a check (4): the sum of (position + 1) times byte over all bytes
 * before it. Numbers have their low byte first. The used bytes of a recording's blocks are house (2), start
 * second (4), issue (2), payload length (4) and the payload, any bytes or none. The blocks of a recording
 * are numbered from 0, and all but the last use WV_ARCHIVE_DATA_BYTES.
 * out: the blocks from the first byte on, WV_ARCHIVE_BYTES of payload_len; bytes after them keep their
 *   values.
 * answer: bytes written.
 * Refuses WV_LIST_LENGTH for answer; then WV_TOO_LARGE for over WV_MAX_PAYLOAD_BYTES, and
 * WV_OUTPUT_TOO_SHORT for a shorter out; with both lists as they were. */
uint32_t wv_archive_write(uint16_t house, uint32_t start, uint16_t issue, const uint8_t *payload,
                          size_t payload_len, uint8_t *out, size_t out_len, uint32_t *answer,
                          size_t answer_len);

/* Reads an archive: its recordings in force, in the order of the file. A recording is in force unless
 * another one of the same house and start second has a higher issue. A file is accepted if it is what
 * `wv_archive_write` writes of recordings of which no two agree in house, start second and issue. An empty
 * file has no recordings; there is no limit to a file's length.
 * list: WV_ARCHIVE_NUMBERS_PER_RECORDING for each recording in force: house, start second, issue, payload
 *   length.
 * payloads: their payloads, one after the other. In both lists elements after what is written keep their
 *   values. So many numbers for each block of the file, and as many payload bytes as the file has bytes, are
 *   always enough.
 * answer: recordings in force, payload bytes. Numbers over 32 bits are kept to their low 32.
 * Refuses WV_LIST_LENGTH for answer, with nothing written.
 * Then refuses WV_BAD_BLOCK, with the number of the first bad block, counted from 0 in the file, and 0 in
 * answer, and the other lists as they were. A block is bad that has under WV_ARCHIVE_BLOCK_BYTES, a wrong
 * check, a payload length over WV_MAX_PAYLOAD_BYTES, a number, a count of used bytes or a filling other
 * than that length and the blocks before it ask for, or that is the file's last while its recording is
 * unfinished.
 * Then refuses WV_RECORDING_TWICE for the same house, start second and issue twice, and WV_OUTPUT_TOO_SHORT
 * for list or payloads; with all lists as they were. */
uint32_t wv_archive_read(const uint8_t *file, size_t file_len, uint32_t *list, size_t list_len,
                         uint8_t *payloads, size_t payloads_len, uint32_t *answer, size_t answer_len);

#ifdef __cplusplus
}
#endif

#endif
