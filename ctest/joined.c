/* Pass lists joined, by the C interface: the slots of the second list after those of the first, the
   numbers of crates/joined_lists/specs/Example.antt. */
#include <string.h>
#include "answers.h"

enum { MICROPHONE = WV_PASS_SLOTS, STEM = 2 * WV_PASS_SLOTS, BOTH = MICROPHONE + STEM, ELEMENTS = 5 };

/* The microphone's pass, then the two of the stem: before the calls, and after them. */
static const int32_t before[BOTH] = {
    17, 2, 1024, 1024, 10, 4, 0, 0, 0, 0, 0, 0, 1,  -2, 0, 0, 0, 0, 0, 0,
    1,  1, 512,  -512, 20, 0, 0, 0, 0, 0, 0, 0, -6, 0,  0, 0, 0, 0, 0, 0,
    -1, 3, 256,  1023, 40, 0, 0, 0, 0, 0, 0, 0, 8,  0,  0, 0, 0, 0, 0, 0,
};
static const int32_t after[BOTH] = {
    17, 2, 1028, 1024, 124, 17, 0,   0, 0, 0, 0, 0, 55, 3, 0,  0, 0, 0, 0, 0,
    1,  1, 514,  -512, 20,  27, 138, 0, 0, 0, 0, 0, -6, 6, 52, 0, 0, 0, 0, 0,
    -1, 3, 262,  1024, 201, 0,  0,   0, 0, 0, 0, 0, 8,  0, 0,  0, 0, 0, 0, 0,
};
static const int32_t residuals[ELEMENTS] = {1, -1, 100, 50, 7};
static const int32_t between[ELEMENTS] = {17, 3, 124, 55, 7};
static const int32_t samples[ELEMENTS] = {37, 43, 149, 201, 7};

/* Both lists in one call. */
static void in_one_call(pass_call *call, const int32_t *from, const int32_t *to)
{
    int32_t passes[BOTH], buffer[ELEMENTS];
    memcpy(passes, before, sizeof passes);
    memcpy(buffer, from, sizeof buffer);
    expect("a joined call", call(passes, BOTH, buffer, ELEMENTS), 0);
    expect_list("the buffer of a joined call", buffer, to, ELEMENTS);
    expect_list("the passes of a joined call", passes, after, BOTH);
}

/* The list whose slots begin at `at`, in a call of its own. */
static void in_its_own_call(pass_call *call, int32_t *passes, size_t at, size_t slots, int32_t *buffer,
                            const int32_t *to)
{
    expect("the call of one list", call(passes + at, slots, buffer, ELEMENTS), 0);
    expect_list("the buffer of one list's call", buffer, to, ELEMENTS);
}

/* 17 passes, each the microphone's, before a call. */
static void seventeen(int32_t *passes)
{
    for (size_t i = 0; i < 17; i++)
        memcpy(passes + i * WV_PASS_SLOTS, before, MICROPHONE * sizeof *passes);
}

/* They are refused in one call, which changes nothing. */
static void refused(pass_call *call, int32_t *passes, int32_t *buffer)
{
    static int32_t kept[17 * WV_PASS_SLOTS];
    int32_t as_it_was[ELEMENTS];
    memcpy(kept, passes, sizeof kept);
    memcpy(as_it_was, buffer, sizeof as_it_was);
    expect("17 passes in one call", call(passes, 17 * WV_PASS_SLOTS, buffer, ELEMENTS), WV_TOO_MANY_PASSES);
    expect_list("the buffer of 17 passes", buffer, as_it_was, ELEMENTS);
    expect_list("17 passes", passes, kept, 17 * WV_PASS_SLOTS);
}

/* Two calls take them, by 16 and by the seventeenth, there and back. */
static void over_sixteen(void)
{
    static int32_t there[17 * WV_PASS_SLOTS], back[17 * WV_PASS_SLOTS];
    static const int32_t left[ELEMENTS] = {273, 67, 4869, 1223, 7};
    const size_t sixteen = 16 * WV_PASS_SLOTS;
    int32_t buffer[ELEMENTS];
    seventeen(there);
    seventeen(back);
    memcpy(buffer, residuals, sizeof buffer);
    refused(wv_decorrelate, there, buffer);
    expect("16 passes", wv_decorrelate(there, sixteen, buffer, ELEMENTS), 0);
    in_its_own_call(wv_decorrelate, there, sixteen, MICROPHONE, buffer, left);
    refused(wv_analyse, back, buffer);
    expect("the seventeenth undone", wv_analyse(back + sixteen, MICROPHONE, buffer, ELEMENTS), 0);
    in_its_own_call(wv_analyse, back, 0, sixteen, buffer, residuals);
    expect_list("the 17 passes of analysis", back, there, 17 * WV_PASS_SLOTS);
}

void joined_lists(void)
{
    int32_t passes[BOTH], buffer[ELEMENTS];
    in_one_call(wv_decorrelate, residuals, samples);
    in_one_call(wv_analyse, samples, residuals);

    memcpy(passes, before, sizeof passes);
    memcpy(buffer, residuals, sizeof buffer);
    in_its_own_call(wv_decorrelate, passes, 0, MICROPHONE, buffer, between);
    in_its_own_call(wv_decorrelate, passes, MICROPHONE, STEM, buffer, samples);
    expect_list("the passes of two calls", passes, after, BOTH);

    memcpy(passes, before, sizeof passes);
    in_its_own_call(wv_analyse, passes, MICROPHONE, STEM, buffer, between);
    in_its_own_call(wv_analyse, passes, 0, MICROPHONE, buffer, residuals);
    expect_list("the passes of two calls of analysis", passes, after, BOTH);

    over_sixteen();
}
