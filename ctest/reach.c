/* Log words past the format's reach, of 8192 or more or of -8192 or less: each call that expands them
   refuses them, after 1 and before 2, with all lists as they were but for the slots of an answer,
   which are 0. */
#include <string.h>
#include "answers.h"

enum { LARGEST = 2143289344 };

static const int32_t marks[7] = {77, 77, 77, 77, 77, 77, 77};
static uint8_t entropy[12];

/* Six log words: one at its place, and another in all others. */
static void set_entropy(size_t place, int word, int others)
{
    for (size_t i = 0; i < 6; i++) {
        const unsigned bits = (unsigned)(i == place ? word : others);
        entropy[2 * i] = (uint8_t)(bits & 255);
        entropy[2 * i + 1] = (uint8_t)(bits >> 8 & 255);
    }
}

static void every_log_word(void)
{
    for (int word = INT16_MIN; word <= INT16_MAX; word++) {
        const int out_of_reach = word >= 8192 || word <= -8192;
        int32_t value[2] = {77, 77};
        expect("wv_log_word into no slot", wv_log_word((int16_t)word, value, 0), 6);
        expect("a value that was not lent", value[0], 77);
        expect("wv_log_word", wv_log_word((int16_t)word, value, 2), out_of_reach ? 17 : 0);
        if (out_of_reach)
            expect("the value of a refused log word", value[0], 77);
        else
            expect("that a value is in its span", value[0] >= -LARGEST && value[0] <= LARGEST, 1);
        expect("the number after it", value[1], 77);
    }
}

/* An expansion of `bytes` bytes that is refused; 6 slots are enough. */
static void refuse_medians(size_t bytes, size_t slots, uint32_t wanted)
{
    int32_t medians[7] = {77, 77, 77, 77, 77, 77, 77};
    expect("wv_entropy", wv_entropy(entropy, bytes, medians, slots), wanted);
    expect_list("medians after a refusal", medians, marks, 7);
}

static void expect_answer(const uint32_t *answer, size_t slots, size_t enough)
{
    for (size_t i = 0; i <= enough; i++)
        expect("a number of the answer to a refusal", answer[i], slots >= enough && i < enough ? 0 : 77);
}

/* A reading of an empty payload that is refused before any word; 10 slots are enough. */
static void refuse_reading(size_t bytes, size_t frames, size_t count, size_t slots, uint32_t wanted)
{
    int32_t samples[3] = {77, 77, 77};
    uint32_t answer[11] = {77, 77, 77, 77, 77, 77, 77, 77, 77, 77, 77};
    expect("wv_read", wv_read(entropy, bytes, entropy, 0, frames, samples, count, answer, slots), wanted);
    expect_list("samples after a refusal", samples, marks, 3);
    expect_answer(answer, slots, 10);
}

/* A packing, of which the second residual is outside the span, that is refused; 7 slots are enough. */
static void refuse_packing(size_t bytes, size_t frames, size_t count, size_t room, size_t slots,
                           uint32_t wanted)
{
    static const int32_t residuals[3] = {3, 1879048192, 3};
    uint8_t out[28];
    uint32_t answer[8] = {77, 77, 77, 77, 77, 77, 77, 77};
    memset(out, 77, sizeof out);
    expect("wv_pack", wv_pack(residuals, count, entropy, bytes, frames, out, room, answer, slots), wanted);
    for (size_t i = 0; i < 28; i++)
        expect("a byte after a refusal", out[i], 77);
    expect_answer(answer, slots, 7);
}

/* Beside negative medians, and among the three words of a mono payload. */
static void in_each_place(void)
{
    static const int past[4] = {8192, -8192, INT16_MAX, INT16_MIN};
    int32_t medians[6];
    for (size_t i = 0; i < 24; i++) {
        set_entropy(i / 4, past[i % 4], -256);
        refuse_medians(12, 7, 17);
        refuse_reading(12, 0, 0, 10, 17);
        refuse_reading(12, 1, 2, 11, 17);
        refuse_packing(12, 0, 0, 0, 7, 17);
        refuse_packing(12, 1, 2, 28, 8, 17);
        if (i / 4 < 3)
            refuse_medians(6, 6, 17);
        else
            expect("wv_entropy of three words", wv_entropy(entropy, 6, medians, 6), 0);
        refuse_reading(6, 1, 2, 10, i / 4 < 3 ? 17 : 2);
        refuse_packing(6, 1, 2, 28, 7, i / 4 < 3 ? 17 : 2);
    }
}

/* The last words on both sides are accepted; a negative median is no stereo. */
static void within_reach(void)
{
    for (size_t place = 0; place < 6; place++) {
        int32_t medians[6], none[1] = {77};
        uint8_t out[1] = {77};
        uint32_t answer[10];
        set_entropy(place, 8191, 256);
        expect("wv_entropy of 8191", wv_entropy(entropy, 12, medians, 6), 0);
        expect("the median of 8191", medians[place], LARGEST);
        expect("wv_read of 8191", wv_read(entropy, 12, entropy, 0, 0, none, 0, answer, 10), 0);
        expect("the median of 8191", answer[1 + place], LARGEST);
        expect("wv_pack of 8191", wv_pack(none, 0, entropy, 12, 0, out, 0, answer, 7), 0);
        expect("the median of 8191", answer[1 + place], LARGEST);
        set_entropy(place, -8191, 256);
        expect("wv_entropy of -8191", wv_entropy(entropy, 12, medians, 6), 0);
        expect("the median of -8191", medians[place], -LARGEST);
        refuse_reading(12, 1, 2, 10, 2);
        refuse_packing(12, 1, 2, 28, 7, 2);
    }
}

/* Of each function every line has the faults of those below it too. */
static void in_order(void)
{
    set_entropy(0, 8192, -256);
    refuse_medians(11, 5, 6);
    refuse_medians(11, 6, 1);
    refuse_medians(12, 6, 17);
    refuse_reading(11, 131073, 3, 9, 6);
    refuse_reading(11, 131073, 3, 10, 5);
    refuse_reading(11, 1, 3, 10, 6);
    refuse_reading(11, 1, 2, 10, 1);
    refuse_reading(12, 1, 2, 10, 17);
    refuse_packing(11, 131073, 3, 27, 6, 6);
    refuse_packing(11, 131073, 3, 27, 7, 5);
    refuse_packing(11, 1, 3, 27, 7, 6);
    refuse_packing(11, 1, 2, 27, 7, 1);
    refuse_packing(12, 1, 2, 27, 7, 17);
    set_entropy(0, 8191, -256);
    refuse_reading(12, 1, 2, 10, 2);
    refuse_packing(12, 1, 2, 27, 7, 2);
    set_entropy(0, 8191, 8191);
    refuse_packing(12, 1, 2, 27, 7, 11);
    refuse_packing(12, 1, 2, 28, 7, 10);
}

void log_words_out_of_reach(void)
{
    every_log_word();
    in_each_place();
    within_reach();
    in_order();
}
