/* Buffers cut on eights, by the C interface: the numbers of crates/cut_buffers/specs/Example.antt, parts
   that are empty, passes that adapt, refused lists, and a recording that is longer than a call accepts. */
#include <string.h>
#include "answers.h"

enum { MOST = 19, SETTINGS = 4, HISTORIES = WV_PASS_SLOTS - SETTINGS };

/* A buffer, and the histories that the calls leave with it. */
struct left {
    int32_t buffer[MOST], histories[HISTORIES];
};

/* Residuals, and a pass of this term. `whole` is what one call leaves, `apart` what two leave with a cut
   after so many frames, and `undone` what analysis of the whole leaves in two. */
struct example {
    int8_t term;
    size_t elements, frames;
    int32_t residuals[MOST];
    struct left whole, apart, undone;
};

/* The second frame goes on from the first, or from the 0 with which the history began. */
static const struct example after_one = {
    1, 5, 1, {1, 2, 3, 4, 7},
    {{1, 2, 4, 6, 7}, {0, 1, 4, 0, 0, 0, 0, 0, 0, 2, 6}},
    {{1, 2, 3, 4, 7}, {0, 3, 0, 0, 0, 0, 0, 0, 0, 4}},
    {{1, 2, 4, 6, 7}, {0, 4, 0, 0, 0, 0, 0, 0, 0, 6}},
};

/* As many frames as the lag are not enough. */
static const struct example after_four = {
    4, 11, 4, {1, 10, 2, 20, 3, 30, 4, 40, 5, 50, 7},
    {{1, 10, 2, 20, 3, 30, 4, 40, 6, 60, 7}, {6, 0, 0, 0, 1, 2, 3, 4, 60, 0, 0, 0, 10, 20, 30, 40}},
    {{1, 10, 2, 20, 3, 30, 4, 40, 5, 50, 7}, {0, 0, 0, 0, 5, 2, 3, 4, 0, 0, 0, 0, 50, 20, 30, 40}},
    {{1, 10, 2, 20, 3, 30, 4, 40, 6, 60, 7}, {0, 0, 0, 0, 6, 2, 3, 4, 0, 0, 0, 0, 60, 20, 30, 40}},
};

/* Eight frames are enough. */
static const struct example after_eight = {
    1, 19, 8, {1, -1, 1, -1, 1, -1, 1, -1, 1, -1, 1, -1, 1, -1, 1, -1, 1, -1, 7},
    {{1, -1, 2, -2, 3, -3, 4, -4, 5, -5, 6, -6, 7, -7, 8, -8, 9, -9, 7},
     {8, 9, 2, 3, 4, 5, 6, 7, -8, -9, -2, -3, -4, -5, -6, -7}},
    {{1, -1, 2, -2, 3, -3, 4, -4, 5, -5, 6, -6, 7, -7, 8, -8, 9, -9, 7},
     {8, 9, 2, 3, 4, 5, 6, 7, -8, -9, -2, -3, -4, -5, -6, -7}},
    {{1, -1, 1, -1, 1, -1, 1, -1, 1, -1, 1, -1, 1, -1, 1, -1, 1, -1, 7},
     {8, 9, 2, 3, 4, 5, 6, 7, -8, -9, -2, -3, -4, -5, -6, -7}},
};

/* Term 17 goes on from twice the last frame less the one before: no cut after a whole frame shows. */
static const struct example without_lag = {
    17, 5, 1, {1, 2, 3, 4, 7},
    {{1, 2, 5, 8, 7}, {5, 1, 0, 0, 0, 0, 0, 0, 8, 2}},
    {{1, 2, 5, 8, 7}, {5, 1, 0, 0, 0, 0, 0, 0, 8, 2}},
    {{1, 2, 3, 4, 7}, {5, 1, 0, 0, 0, 0, 0, 0, 8, 2}},
};

/* A pass that predicts by the whole of its source, does not adapt, and begins with zeros. */
static void begin(int8_t term, int32_t *pass)
{
    const int32_t none = 0;
    expect("the pass of a cut", wv_pass(term, 0, 1024, 1024, &none, 0, &none, 0, pass, WV_PASS_SLOTS), 0);
}

/* A call for the elements up to each of these ends, of which the last is that of the buffer. */
static void in_calls(pass_call *call, const struct example *example, const size_t *ends, const int32_t *from,
                     const int32_t *to, const int32_t *histories)
{
    const char *what = call == wv_analyse ? "analysis in parts" : "decorrelation in parts";
    const int32_t settings[SETTINGS] = {example->term, 0, 1024, 1024};
    int32_t pass[WV_PASS_SLOTS], buffer[MOST];
    begin(example->term, pass);
    memcpy(buffer, from, sizeof buffer);
    for (size_t at = 0, part = 0; at < example->elements; at = ends[part++]) {
        expect(what, call(pass, WV_PASS_SLOTS, buffer + at, ends[part] - at), 0);
        expect_list(what, buffer + ends[part], from + ends[part], example->elements - ends[part]);
    }
    expect_list(what, buffer, to, example->elements);
    expect_list(what, pass, settings, SETTINGS);
    expect_list(what, pass + SETTINGS, histories, HISTORIES);
}

/* In one call and in two, there and back. */
static void there_and_back(const struct example *example)
{
    const size_t ends[2] = {2 * example->frames, example->elements};
    const int32_t *residuals = example->residuals;
    const struct left *whole = &example->whole, *apart = &example->apart, *undone = &example->undone;
    in_calls(wv_decorrelate, example, ends + 1, residuals, whole->buffer, whole->histories);
    in_calls(wv_analyse, example, ends + 1, whole->buffer, residuals, whole->histories);
    in_calls(wv_decorrelate, example, ends, residuals, apart->buffer, apart->histories);
    in_calls(wv_analyse, example, ends, apart->buffer, residuals, apart->histories);
    in_calls(wv_analyse, example, ends, whole->buffer, undone->buffer, undone->histories);
}

/* Nine frames in four parts, two of them empty. */
static void empty_parts(void)
{
    static const size_t ends[4] = {0, 16, 16, 19};
    const int32_t *residuals = after_eight.residuals;
    const struct left *whole = &after_eight.whole;
    in_calls(wv_decorrelate, &after_eight, ends, residuals, whole->buffer, whole->histories);
    in_calls(wv_analyse, &after_eight, ends, whole->buffer, residuals, whole->histories);
}

/* Three passes that adapt, the lag in the middle, so that in both directions another one comes first. */
enum { THREE = 3 * WV_PASS_SLOTS, LONGEST = 39 };
static const int32_t adapting[THREE] = {
    18, 5, 512, 256,  9, 4,  0, 0,  0, 0,   0,  0,   -3, 8,  0,  0,  0, 0,   0,   0,
    3,  2, 700, -300, 5, -6, 7, -8, 9, -10, 11, -12, 40, 30, 20, 10, 0, -10, -20, -30,
    -2, 1, 90,  1020, 6, 0,  0, 0,  0, 0,   0,  0,   12, 0,  0,  0,  0, 0,   0,   0,
};

/* Calls for the parts, up to this odd number of elements, leave what one call leaves, and other weights
   than before. */
static void by_passes_that_adapt(pass_call *call, size_t elements)
{
    const size_t ends[4] = {0, 16, 32, elements};
    int32_t whole[THREE], apart[THREE], at_once[LONGEST], buffer[LONGEST];
    for (int32_t i = 0; i < LONGEST; i++)
        at_once[i] = buffer[i] = i * i % 41 - 20;
    const int32_t odd = buffer[elements - 1];
    memcpy(whole, adapting, sizeof whole);
    memcpy(apart, adapting, sizeof apart);
    expect("a call that adapts", call(whole, THREE, at_once, elements), 0);
    for (size_t at = 0, part = 0; at < elements; at = ends[part++])
        expect("a part of it", call(apart, THREE, buffer + at, ends[part] - at), 0);
    expect_list("the buffer of passes that adapt", buffer, at_once, LONGEST);
    expect_list("passes that adapt", apart, whole, THREE);
    expect("the odd last element", buffer[elements - 1], odd);
    for (size_t i = 2; i < THREE; i += WV_PASS_SLOTS)
        expect("weights that stay", memcmp(apart + i, adapting + i, 2 * sizeof *apart) == 0, 0);
}

/* The last part is the odd element alone, or has three frames before it. */
static void last_parts(pass_call *call)
{
    by_passes_that_adapt(call, 33);
    by_passes_that_adapt(call, LONGEST);
}

/* A refused list is refused over each part, the empty one too, with the same number. */
static void refused_over_parts(pass_call *call)
{
    static const size_t ends[4] = {0, 16, 32, LONGEST};
    int32_t passes[17 * WV_PASS_SLOTS], kept[17 * WV_PASS_SLOTS], buffer[LONGEST] = {0};
    for (size_t i = 0; i < 17; i++)
        memcpy(passes + i * WV_PASS_SLOTS, adapting, WV_PASS_SLOTS * sizeof *passes);
    passes[WV_PASS_SLOTS] = 9;
    memcpy(kept, passes, sizeof kept);
    for (size_t at = 0, part = 0; at < LONGEST; at = ends[part++]) {
        const size_t size = ends[part] - at;
        expect("term 9", call(passes, THREE, buffer + at, size), WV_INVALID_TERM);
        expect("17 passes", call(passes, 17 * WV_PASS_SLOTS, buffer + at, size), WV_TOO_MANY_PASSES);
    }
    expect_list("passes that are refused", passes, kept, 17 * WV_PASS_SLOTS);
}

enum { LONG = WV_MAX_ELEMENTS + 2001 };
static int32_t recording[LONG];

/* The recording by lag 1, in parts of this size; in one call it is refused. */
static void in_parts(pass_call *call, size_t size)
{
    int32_t pass[WV_PASS_SLOTS];
    begin(1, pass);
    expect("a long recording whole", call(pass, WV_PASS_SLOTS, recording, LONG), WV_TOO_LARGE);
    expect("one too many", call(pass, WV_PASS_SLOTS, recording, WV_MAX_ELEMENTS + 1), WV_TOO_LARGE);
    for (size_t at = 0; at < LONG; at += size) {
        const size_t part = LONG - at < size ? LONG - at : size;
        expect("a part of a long recording", call(pass, WV_PASS_SLOTS, recording + at, part), 0);
    }
}

/* Residuals that are all 1: each sample is the number of its frame, counted from 1 through the whole, and
   the odd last element stays 1. And back. */
static void longer_than_a_call(size_t size)
{
    size_t wrong = 0, undone = 0;
    for (size_t i = 0; i < LONG; i++)
        recording[i] = 1;
    in_parts(wv_decorrelate, size);
    for (size_t i = 0; i < LONG; i++)
        wrong += recording[i] != (i < LONG - 1 ? (int32_t)(i / 2 + 1) : 1);
    expect("wrong samples of a long recording", wrong, 0);
    in_parts(wv_analyse, size);
    for (size_t i = 0; i < LONG; i++)
        undone += recording[i] == 1;
    expect("residuals of a long recording", undone, LONG);
}

void cuts(void)
{
    there_and_back(&after_one);
    there_and_back(&after_four);
    there_and_back(&after_eight);
    there_and_back(&without_lag);
    empty_parts();
    last_parts(wv_decorrelate);
    last_parts(wv_analyse);
    refused_over_parts(wv_decorrelate);
    refused_over_parts(wv_analyse);
    longer_than_a_call(2 * 1024);
    longer_than_a_call(WV_MAX_ELEMENTS);
}
