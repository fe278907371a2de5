/* Bits by stem: what a word takes is added to the total of the channel that was due, a refused word adds
   to neither, a state whose totals together exceed its place is refused with 12, and a reading reports
   the totals of its accepted words. */
#include <string.h>
#include "answers.h"

enum { PLACE, CHANNEL, PENDING = 4, MEDIANS = 7, LEFT = 13, RIGHT, SLOTS };
enum { BITS_USED, WRITTEN = 7, LEFT_READ, RIGHT_READ, READ_SLOTS };
static const uint32_t most = UINT32_MAX, half = 0x80000000u;

/* From medians of 1: a run length of 0 and 3, 9 bits, then -1, 1 bit. The same from bit 8 on. A run of
   four zeros, 6 bits. From bit 8 on a run length of 0 and a word that ends the stream. */
static const uint8_t ones[12] = {0, 1, 0, 1, 0, 1, 0, 1, 0, 1, 0, 1};
static const uint8_t two[2] = {0x7e, 0x02}, later[3] = {0, 0x7e, 0x02}, run[1] = {7};
static const uint8_t stop[8] = {0, 0xfe, 0xff, 0xfd, 0xff, 0xff, 0xff, 0x07};
static uint8_t too_long[4194305];

/* What is not 0 before a word, but for the medians, which are 1. */
struct before {
    uint32_t place, channel, pending, left, right;
};

/* A state, with a mark after its slots. */
static void make_state(struct before before, uint32_t state[SLOTS + 1])
{
    memset(state, 0, SLOTS * sizeof *state);
    for (size_t i = 0; i < 6; i++)
        state[MEDIANS + i] = 1;
    state[PLACE] = before.place;
    state[CHANNEL] = before.channel;
    state[PENDING] = before.pending;
    state[LEFT] = before.left;
    state[RIGHT] = before.right;
    state[SLOTS] = 77;
}

/* A word that is accepted, and what it leaves. */
static void accept(const char *what, const uint8_t *payload, size_t bytes, struct before before,
                   uint32_t place, uint32_t left, uint32_t right)
{
    uint32_t state[SLOTS + 1], report[2];
    int32_t sample[1];
    make_state(before, state);
    expect(what, wv_word(payload, bytes, state, SLOTS, sample, 1, report, 2), 0);
    expect("the place after it", state[PLACE], place);
    expect("the bits read for left after it", state[LEFT], left);
    expect("the bits read for right after it", state[RIGHT], right);
    expect("the channel due after it", state[CHANNEL], 1 - before.channel);
    expect("the number after the state", state[SLOTS], 77);
}

/* A word that is refused. */
static void refuse(const char *what, const uint8_t *payload, size_t bytes, struct before before,
                   size_t slots, uint32_t wanted)
{
    uint32_t state[SLOTS + 1], kept[SLOTS + 1], report[2] = {77, 77};
    int32_t sample[1] = {77};
    make_state(before, state);
    make_state(before, kept);
    expect(what, wv_word(payload, bytes, state, slots, sample, 1, report, 2), wanted);
    expect("that the state is as it was", memcmp(state, kept, sizeof state), 0);
    expect("the sample of a refused word", sample[0], wanted == 6 ? 77 : 0);
    expect("the zone of a refused word", report[0], wanted == 6 ? 77 : 0);
}

static void charged(void)
{
    accept("a word after a run length of 0", two, 2, (struct before){0}, 9, 9, 0);
    accept("the same for right", two, 2, (struct before){.channel = 1}, 9, 0, 9);
    accept("a run", run, 1, (struct before){0}, 6, 6, 0);
    accept("a run for right", run, 1, (struct before){.channel = 1}, 6, 0, 6);
    accept("a zero out of a run", run, 1, (struct before){6, 0, 3, 2, 4}, 6, 2, 4);
    accept("a zero for right", run, 1, (struct before){6, 1, 1, 2, 4}, 6, 2, 4);
}

static void at_the_place(void)
{
    accept("totals below the place", later, 3, (struct before){8, 0, 0, 3, 4}, 17, 12, 4);
    accept("totals at the place", later, 3, (struct before){8, 0, 0, 3, 5}, 17, 12, 5);
    accept("a total at the place", later, 3, (struct before){8, 1, 0, 8, 0}, 17, 8, 9);
    refuse("totals above the place", later, 3, (struct before){8, 0, 0, 3, 6}, SLOTS, 12);
    refuse("left above the place", later, 3, (struct before){8, 0, 0, 9, 0}, SLOTS, 12);
    refuse("right above the place", later, 3, (struct before){8, 1, 0, 0, 9}, SLOTS, 12);
    refuse("a zero with totals above the place", run, 1, (struct before){6, 0, 3, 3, 4}, SLOTS, 12);
}

/* A zero out of a run is read at any place. */
static void at_the_ends(void)
{
    accept("left at its end", run, 1, (struct before){most, 0, 1, most, 0}, most, most, 0);
    accept("right at its end", run, 1, (struct before){most, 1, 1, 0, most}, most, 0, most);
    accept("halves", run, 1, (struct before){most, 0, 1, half, half - 1}, most, half, half - 1);
    refuse("both at their ends", run, 1, (struct before){most, 0, 1, most, most}, SLOTS, 12);
    refuse("one above the last place", run, 1, (struct before){most, 0, 1, most, 1}, SLOTS, 12);
    refuse("a sum of 0 in 32 bits", two, 2, (struct before){0, 0, 0, 1, most}, SLOTS, 12);
    refuse("halves of it", two, 2, (struct before){0, 1, 0, half, half}, SLOTS, 12);
}

/* Of the second part every line has the faults of those below it too. */
static void kept(void)
{
    const struct before within = {8, 0, 0, 3, 5}, above = {8, 0, 0, 3, 6};
    refuse("a word cut short", later, 2, within, SLOTS, 3);
    refuse("a word that ends the stream", stop, 8, within, SLOTS, 4);
    refuse("channel 2", later, 3, (struct before){8, 2, 0, 3, 5}, SLOTS, 12);

    refuse("14 slots", too_long, sizeof too_long, above, SLOTS - 1, 6);
    refuse("a long payload", too_long, sizeof too_long, above, SLOTS, 5);
    refuse("totals above the place, and no bits", too_long, 0, above, SLOTS, 12);
    refuse("no bits", too_long, 0, within, SLOTS, 3);
}

/* A reading of so many frames, and the bits of left and of right that it reports. */
static void read_totals(const char *what, const uint8_t *payload, size_t bytes, size_t frames,
                        uint32_t wanted, uint32_t left, uint32_t right)
{
    int32_t samples[8];
    uint32_t answer[READ_SLOTS + 1];
    answer[READ_SLOTS] = 77;
    expect(what, wv_read(ones, 12, payload, bytes, frames, samples, 2 * frames, answer, READ_SLOTS), wanted);
    expect("the bits that it read for left", answer[LEFT_READ], left);
    expect("the bits that it read for right", answer[RIGHT_READ], right);
    expect("the bits that it used", answer[BITS_USED], left + right);
    expect("the number after the answer", answer[READ_SLOTS], 77);
}

static void readings(void)
{
    static const uint8_t end[8] = {0x7e, 0xfe, 0xff, 0xfb, 0xff, 0xff, 0xff, 0x0f};
    int32_t samples[2] = {77, 77};
    uint32_t answer[READ_SLOTS];
    for (size_t i = 0; i < READ_SLOTS; i++)
        answer[i] = 77;
    expect("wv_read into 9 slots", wv_read(ones, 12, two, 2, 1, samples, 2, answer, READ_SLOTS - 1), 6);
    expect_list("samples after a refusal", samples, (const int32_t[]){77, 77}, 2);
    for (size_t i = 0; i < READ_SLOTS; i++)
        expect("a number of the answer to a refusal", answer[i], 77);
    read_totals("a reading of no frames", two, 2, 0, 0, 0, 0);
    read_totals("a reading", two, 2, 1, 0, 9, 1);
    read_totals("a reading of a run", run, 1, 2, 0, 6, 0);
    read_totals("a reading that its first word ends", two, 1, 1, 3, 0, 0);
    read_totals("a reading that its third word ends", end, 8, 2, 4, 9, 1);
    read_totals("a reading that its seventh word ends", two, 2, 4, 3, 13, 3);
    read_totals("a reading of too long a payload", too_long, sizeof too_long, 1, 5, 0, 0);
}

/* After as many words as a reading of the first bytes of a payload accepts, the state has its totals, and
   the next word is refused with the same number. */
static void as_many_words(const uint8_t *payload, size_t bytes, size_t frames)
{
    int32_t samples[32], sample[1];
    uint32_t answer[READ_SLOTS], state[SLOTS + 1], report[2];
    const uint32_t ended =
        wv_read(ones, 12, payload, bytes, frames, samples, 2 * frames, answer, READ_SLOTS);
    make_state((struct before){0}, state);
    for (size_t i = 0; i < answer[WRITTEN]; i++)
        expect("a word", wv_word(payload, bytes, state, SLOTS, sample, 1, report, 2), 0);
    if (ended != 0)
        expect("the word that ends", wv_word(payload, bytes, state, SLOTS, sample, 1, report, 2), ended);
    expect("the place after as many words", state[PLACE], answer[BITS_USED]);
    expect("the bits read for left after them", state[LEFT], answer[LEFT_READ]);
    expect("the bits read for right after them", state[RIGHT], answer[RIGHT_READ]);
    expect("both together", (long long)state[LEFT] + state[RIGHT], state[PLACE]);
}

/* Clicks in silence: runs that end in both channels, and words between them. */
static void words_and_readings(void)
{
    static const int32_t residuals[32] = {[5] = 3, [16] = -1, [17] = 900, [18] = -70000, [19] = 2, [31] = 1};
    uint8_t out[16 * 28];
    uint32_t answer[7];
    expect("wv_pack", wv_pack(residuals, 32, ones, 12, 16, out, sizeof out, answer, 7), 0);
    const size_t packed = (answer[0] + 7) / 8;
    for (size_t frames = 0; frames <= 16; frames++)
        for (size_t bytes = 0; bytes <= packed; bytes++)
            as_many_words(out, bytes, frames);
}

void bits_by_stem(void)
{
    charged();
    at_the_place();
    at_the_ends();
    kept();
    readings();
    words_and_readings();
}
