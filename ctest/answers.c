/* Calls the library from C, through its header, and checks answers that follow from the rules of
   docs/PROVED.md. Prints each answer that is not the expected one; the exit status is 0 when there
   is none. Bits by stem are in totals.c, log words out of reach in reach.c, pass lists joined in
   joined.c, buffers cut on eights in cuts.c, sound files in waves.c, morning pages in pages.c, wide
   recordings in wide.c, archives in archives.c. */
#include <stdio.h>
#include <string.h>
#include "answers.h"

static int failures;

void expect(const char *what, long long got, long long wanted)
{
    if (got != wanted) {
        printf("ctest: %s is %lld, not %lld\n", what, got, wanted);
        failures++;
    }
}

void expect_list(const char *what, const int32_t *got, const int32_t *wanted, size_t count)
{
    for (size_t i = 0; i < count; i++) {
        char place[64];
        snprintf(place, sizeof place, "%s[%zu]", what, i);
        expect(place, got[i], wanted[i]);
    }
}

static void log_words(void)
{
    static const int16_t words[6] = {0, 256, -256, 2304, 8191, -8191};
    static const int32_t values[6] = {0, 1, -1, 256, 2143289344, -2143289344};
    for (size_t i = 0; i < 6; i++) {
        int32_t value[2] = {77, 77};
        expect("wv_log_word", wv_log_word(words[i], value, 1), 0);
        expect("the value of a log word", value[0], values[i]);
        expect("the number after it", value[1], 77);
    }
    int32_t none = 77;
    expect("wv_log_word into no slot", wv_log_word(256, &none, 0), 6);
    expect("the number that was not lent", none, 77);
}

static void pass_bytes(void)
{
    int32_t out[2];
    expect("wv_term_byte", wv_term_byte(0x57, out, 2), 0);
    expect_list("term and delta of 57", out, (const int32_t[]){18, 2}, 2);
    expect("wv_term_byte", wv_term_byte(0xe2, out, 2), 0);
    expect_list("term and delta of E2", out, (const int32_t[]){-3, 7}, 2);
    expect("wv_term_byte into one slot", wv_term_byte(0x57, out, 1), 6);
    expect("wv_weight_byte", wv_weight_byte(0x7f, out, 1), 0);
    expect("the weight of 7F", out[0], 1024);
    expect("wv_weight_byte", wv_weight_byte(0x80, out, 1), 0);
    expect("the weight of 80", out[0], -1024);
}

static void entropy(void)
{
    static const uint8_t payload[12] = {0, 1, 0, 9, 0, 0, 0, 0xff, 1, 0xe0, 0xff, 0x1f};
    int32_t medians[7] = {77, 77, 77, 77, 77, 77, 77};
    expect("wv_entropy of 11 bytes", wv_entropy(payload, 11, medians, 6), 1);
    expect("wv_entropy into five slots", wv_entropy(payload, 12, medians, 5), 6);
    expect_list("medians after a refusal", medians, (const int32_t[]){77, 77, 77, 77, 77, 77, 77}, 7);
    expect("wv_entropy of 12 bytes", wv_entropy(payload, 12, medians, 6), 0);
    expect_list("medians", medians, (const int32_t[]){1, 256, 0, -1, -2143289344, 2143289344, 77}, 7);
    expect("wv_entropy of 6 bytes", wv_entropy(payload, 6, medians, 6), 0);
    expect_list("mono medians", medians, (const int32_t[]){1, 256, 0, 0, 0, 0, 77}, 7);
}

static const uint8_t ones[12] = {0, 1, 0, 1, 0, 1, 0, 1, 0, 1, 0, 1};
static const uint8_t payload[2] = {0x7e, 0x02};

static void one_word(void)
{
    uint32_t state[15] = {0, 0, 0, 0, 0, 0, 0, 1, 1, 1, 1, 1, 1, 0, 0};
    static const uint32_t after[15] = {9, 1, 1, 0, 0, 0, 0, 6, 6, 6, 1, 1, 1, 9, 0};
    int32_t sample[1] = {77};
    uint32_t report[2] = {77, 77};
    expect("wv_word", wv_word(payload, 2, state, 15, sample, 1, report, 2), 0);
    expect("the sample of a word", sample[0], 3);
    expect("the zone of a word", report[0], 4);
    expect("the count of a word", report[1], 3);
    for (size_t i = 0; i < 15; i++)
        expect("a number of the state", state[i], after[i]);
    expect("wv_word past the end", wv_word(payload, 1, state, 15, sample, 1, report, 2), 3);
    expect("the place after a refusal", state[0], 9);
    state[1] = 2;
    expect("wv_word for channel 2", wv_word(payload, 2, state, 15, sample, 1, report, 2), 12);
}

static void reading(void)
{
    int32_t samples[5] = {77, 77, 77, 77, 77};
    uint32_t answer[10];
    expect("wv_read", wv_read(ones, 12, payload, 2, 1, samples, 2, answer, 10), 0);
    expect_list("samples", samples, (const int32_t[]){3, -1, 77}, 3);
    expect("the bits of a reading", answer[0], 10);
    expect("the samples of a reading", answer[7], 2);
    expect("wv_read of a run", wv_read(ones, 12, (const uint8_t[]){7}, 1, 2, samples, 4, answer, 10), 0);
    expect_list("samples of a run", samples, (const int32_t[]){0, 0, 0, 0, 77}, 5);
    expect("the bits of a run", answer[0], 6);
    expect("wv_read past the end", wv_read(ones, 12, payload, 1, 1, samples, 2, answer, 10), 3);
    expect("the bits of a refused reading", answer[0], 0);
    expect("wv_read into a list of another length", wv_read(ones, 12, payload, 2, 1, samples, 3, answer, 10),
           6);
    expect("wv_read of a mono payload", wv_read(ones, 6, payload, 2, 1, samples, 2, answer, 10), 2);
}

/* A count through the longest payload: of ones alone, and ended by a zero in its last byte. */
static void longest_count(void)
{
    static uint8_t longest[4194305];
    const size_t most = 4194304;
    int32_t samples[2] = {77, 77}, sample[1];
    uint32_t answer[10], report[2], state[15] = {[0] = 5, [5] = 1, [6] = 1};
    memset(longest, 0xff, sizeof longest);
    expect("wv_read of ones", wv_read(ones, 12, longest, most, 1, samples, 2, answer, 10), 3);
    expect("wv_read of one byte more", wv_read(ones, 12, longest, most + 1, 1, samples, 2, answer, 10), 5);
    expect_list("samples of ones", samples, (const int32_t[]){77, 77}, 2);
    longest[most - 1] = 0x1f;
    expect("wv_word of ones", wv_word(longest, most, state, 15, sample, 1, report, 2), 0);
    expect("the place after the last bit", state[0], 33554432);
    expect("the bits read for left", state[13], 33554432 - 5);
}

static void passes(void)
{
    static const int32_t seed_a[2] = {10, 4}, seed_b[2] = {1, -2};
    int32_t pass[20], again[20], buffer[2] = {1, -1};
    expect("wv_pass", wv_pass(18, 2, 1024, 1024, seed_a, 2, seed_b, 2, pass, 20), 0);
    expect("wv_pass of term 9", wv_pass(9, 2, 1024, 1024, seed_a, 2, seed_b, 2, again, 20), 7);
    expect("wv_pass with one seed", wv_pass(18, 2, 1024, 1024, seed_a, 1, seed_b, 2, again, 20), 8);
    for (size_t i = 0; i < 20; i++)
        again[i] = pass[i];
    expect("wv_decorrelate", wv_decorrelate(pass, 20, buffer, 2), 0);
    expect_list("samples of term 18", buffer, (const int32_t[]){14, 1}, 2);
    expect_list("the pass after", pass,
                (const int32_t[]){18, 2, 1026, 1022, 14, 10, 0, 0, 0, 0, 0, 0, 1, 1}, 14);
    expect("wv_analyse", wv_analyse(again, 20, buffer, 2), 0);
    expect_list("residuals of term 18", buffer, (const int32_t[]){1, -1}, 2);
    expect_list("the pass after analysis", again, pass, 20);
}

static void packing(void)
{
    static const int32_t residuals[2] = {3, -1};
    uint8_t out[29] = {0};
    uint32_t answer[7];
    out[2] = 77;
    expect("wv_pack", wv_pack(residuals, 2, ones, 12, 1, out, 28, answer, 7), 0);
    expect("the bits of packing", answer[0], 10);
    expect("a packed byte", out[0], 0x7e);
    expect("a packed byte", out[1], 0x02);
    expect("the byte after", out[2], 77);
    expect("wv_pack into 27 bytes", wv_pack(residuals, 2, ones, 12, 1, out, 27, answer, 7), 11);
}

/* A zero right set is read and packed as any other; a negative median in it is not, nor are 6
   bytes. */
static void silent_right(void)
{
    static const uint8_t left_only[12] = {0, 1, 0, 1, 0, 1}, silence[12] = {0};
    static const uint8_t negative[12] = {0, 1, 0, 1, 0, 1, 0, 0, 0, 0, 0, 0xff};
    int32_t samples[4] = {77, 77, 77, 77};
    uint8_t out[28] = {0};
    uint32_t answer[10];
    expect("wv_read of a negative right median",
           wv_read(negative, 12, payload, 2, 1, samples, 2, answer, 10), 2);
    expect_list("samples after a refusal", samples, (const int32_t[]){77, 77}, 2);
    expect("wv_read of a silent right", wv_read(left_only, 12, payload, 2, 1, samples, 2, answer, 10), 0);
    expect_list("samples of a silent right", samples, (const int32_t[]){3, -1, 77}, 3);
    expect("the bits of a silent right", answer[0], 10);
    expect("a right median after it", answer[4], 0);
    expect("wv_pack of a silent right", wv_pack(samples, 2, left_only, 12, 1, out, 28, answer, 7), 0);
    expect("a packed byte", out[0], 0x7e);
    expect("a packed byte", out[1], 0x02);
    expect("wv_pack of a mono payload", wv_pack(samples, 2, left_only, 6, 1, out, 28, answer, 7), 2);
    expect("wv_read of silence", wv_read(silence, 12, (const uint8_t[]){7}, 1, 2, samples, 4, answer, 10),
           0);
    expect_list("samples of silence", samples, (const int32_t[]){0, 0, 0, 0}, 4);
    expect("the bits of silence", answer[0], 6);
}

int main(void)
{
    log_words();
    log_words_out_of_reach();
    pass_bytes();
    entropy();
    one_word();
    reading();
    bits_by_stem();
    longest_count();
    passes();
    joined_lists();
    cuts();
    packing();
    silent_right();
    sound_files();
    morning_pages();
    wide_recordings();
    archives();
    if (failures == 0)
        puts("ctest: every answer is the expected one");
    return failures != 0;
}
