/* The calls for recordings wider than the words: samples by hand there and back, the longest
   recording, and each refusal in its order. */
#include <string.h>
#include "answers.h"

/* The longest recording and its literal storage, and one more of each. */
enum { MOST_SAMPLES = 262144, MOST_BYTES = 4 * MOST_SAMPLES };
static int32_t many[MOST_SAMPLES + 1];
static uint8_t literal[MOST_BYTES + 1];

/* sent_bits, zeros, ones and dups; two samples, their literal bits, and what these make of them. */
struct row { uint32_t field[4]; int32_t narrow[2]; uint8_t bits[8]; int32_t wide[2]; };

static uint32_t reassemble(const uint32_t *field, int32_t *samples, size_t count, size_t bytes,
                           uint32_t *answer, size_t slots)
{
    return wv_reassemble_int32(field[0], field[1], field[2], field[3], samples, count, literal, bytes,
                               answer, slots);
}

static uint32_t deconstruct(const uint32_t *field, int32_t *samples, size_t count, size_t bytes,
                            uint32_t *answer, size_t slots)
{
    return wv_deconstruct_int32(field[0], field[1], field[2], field[3], samples, count, literal, bytes,
                                answer, slots);
}

/* Forward, with no more bytes than the bits need. */
static void expect_wide(const struct row *row)
{
    int32_t samples[3] = {row->narrow[0], row->narrow[1], 77};
    uint32_t answer[2] = {77, 77};
    memcpy(literal, row->bits, 8);
    expect("wv_reassemble_int32",
           reassemble(row->field, samples, 2, (2 * row->field[0] + 7) / 8, answer, 1), 0);
    expect_list("wide samples", samples, row->wide, 2);
    expect("the sample after them", samples[2], 77);
    expect("the bits read", answer[0], 2 * row->field[0]);
    expect("the number after them", answer[1], 77);
    for (size_t i = 0; i < 8; i++)
        expect("a literal byte that was read", literal[i], row->bits[i]);
}

/* Back, into storage with a byte more; after the bits it keeps its values. */
static void expect_narrow(const struct row *row)
{
    int32_t samples[3] = {row->wide[0], row->wide[1], 77};
    uint32_t answer[2] = {77, 77};
    memset(literal, 77, 9);
    expect("wv_deconstruct_int32", deconstruct(row->field, samples, 2, 9, answer, 1), 0);
    expect_list("narrow samples", samples, row->narrow, 2);
    expect("the sample after them", samples[2], 77);
    expect("the bits written", answer[0], 2 * row->field[0]);
    expect("the number after them", answer[1], 77);
    for (size_t i = 0; i < 9; i++)
        expect("a literal byte", literal[i], i < (2 * row->field[0] + 7) / 8 ? row->bits[i] : 77);
}

static void by_hand(void)
{
    static const struct row there_and_back[] = {
        {{0, 0, 0, 0}, {INT32_MIN, 3}, {0}, {INT32_MIN, 3}},
        {{4, 0, 0, 0}, {1, -1}, {0xa5}, {0x15, -6}},
        {{4, 2, 0, 0}, {1, -1}, {0xa5}, {0x54, -24}},
        {{4, 0, 2, 0}, {1, -1}, {0xa5}, {0x57, -21}},
        {{4, 0, 0, 2}, {1, -1}, {0xa5}, {0x57, -24}},
        {{4, 2, 3, 1}, {1, -1}, {0xa5}, {0x54, -24}},
        {{4, 0, 2, 31}, {1, -1}, {0xa5}, {0x57, -21}},
        {{5, 0, 0, 0}, {0, -1}, {0xc1, 0x02}, {1, -10}},
        {{9, 0, 0, 0}, {-1, 2}, {0xff, 0x54, 0x01}, {-257, 1194}},
        {{31, 0, 0, 0}, {0, -1}, {0xff, 0xff, 0xff, 0x7f, 0, 0, 0, 0}, {INT32_MAX, INT32_MIN}},
        {{31, 0, 0, 0}, {-1, 0}, {1, 0, 0, 0x80, 0, 0, 0, 0x20}, {INT32_MIN + 1, 0x40000001}},
        {{0, 31, 0, 0}, {0, -1}, {0}, {0, INT32_MIN}},
        {{0, 0, 31, 0}, {0, -1}, {0}, {INT32_MAX, -1}},
        {{0, 0, 0, 31}, {0, -1}, {0}, {0, -1}},
        {{31, 0, 0, 31}, {0, -1}, {0, 0, 0, 0x80, 0xff, 0xff, 0xff, 0x3f}, {0, -1}},
    };
    /* Bits that leave the 32, and bits after the literal ones, which do not count. */
    static const struct row only_there[] = {
        {{8, 8, 0, 0}, {0x12345678, -1}, {0xab, 0xcd}, {0x5678ab00, -0x3300}},
        {{0, 0, 0, 31}, {-2, INT32_MAX}, {0}, {0, -1}},
        {{3, 0, 31, 0}, {-1, 0}, {0xc8}, {INT32_MAX, -1}},
        {{31, 31, 0, 0}, {5, 6}, {1, 0, 0, 0, 0, 0, 0, 0xc0}, {INT32_MIN, 0}},
    };
    for (size_t i = 0; i < sizeof there_and_back / sizeof *there_and_back; i++) {
        expect_wide(&there_and_back[i]);
        expect_narrow(&there_and_back[i]);
    }
    for (size_t i = 0; i < sizeof only_there / sizeof *only_there; i++)
        expect_wide(&only_there[i]);
}

/* A sample of all 32 bits, of which the lowest three are those of the bit above them. */
static int32_t sample(uint32_t i)
{
    const uint32_t any = i * 2654435761u;
    return (int32_t)(any & 8 ? any | 7 : any & ~7u);
}

/* The longest recording is made narrow, and completed out of the bytes that hold its bits. */
static void longest(uint32_t sent_bits, uint32_t dups)
{
    const uint32_t field[4] = {sent_bits, 0, 0, dups};
    const size_t bytes = MOST_SAMPLES / 8 * sent_bits;
    uint32_t answer[1] = {77};
    for (uint32_t i = 0; i < MOST_SAMPLES; i++)
        many[i] = sample(i);
    memset(literal, 77, sizeof literal);
    expect("the longest made narrow", deconstruct(field, many, MOST_SAMPLES, MOST_BYTES, answer, 1), 0);
    expect("its bits", answer[0], (long long)bytes * 8);
    for (uint32_t i = 0; i < MOST_SAMPLES; i++)
        expect("a sample made narrow", many[i], sample(i) >> dups >> sent_bits);
    for (size_t i = bytes; i < sizeof literal; i++)
        expect("a byte after its bits", literal[i], 77);
    expect("the longest completed", reassemble(field, many, MOST_SAMPLES, bytes, answer, 1), 0);
    expect("the bits of that", answer[0], (long long)bytes * 8);
    for (uint32_t i = 0; i < MOST_SAMPLES; i++)
        expect("a sample of the longest", many[i], sample(i));
}

typedef uint32_t direction(const uint32_t *field, int32_t *samples, size_t count, size_t bytes,
                           uint32_t *answer, size_t slots);

/* A row has the faults of the rows below it too, so that the order of the tests shows. */
struct refusal { size_t slots; uint32_t field[4]; size_t samples, bytes; uint32_t refusal; };

/* Each row is refused, with every list as it was. All samples are 1, which ends neither in two 0s,
   nor in two 1s, nor in two copies. */
static void refused(direction *call, const struct refusal *rows, size_t count)
{
    uint32_t answer[1] = {77};
    for (size_t i = 0; i <= MOST_SAMPLES; i++)
        many[i] = 1;
    memset(literal, 77, sizeof literal);
    for (size_t i = 0; i < count; i++) {
        uint32_t refusal = call(rows[i].field, many, rows[i].samples, rows[i].bytes, answer, rows[i].slots);
        expect("a row of refusals", refusal, rows[i].refusal);
        expect("the answer after a refusal", answer[0], 77);
    }
    for (size_t i = 0; i <= MOST_SAMPLES; i++)
        expect("a sample after a refusal", many[i], 1);
    for (size_t i = 0; i < sizeof literal; i++)
        expect("a literal byte after a refusal", literal[i], 77);
}

static void refused_ways(void)
{
    static const struct refusal there[] = {
        {0, {32, 32, 32, 32}, MOST_SAMPLES + 1, 0, 6}, {0, {0, 0, 0, 0}, 1, 4, 6},
        {1, {32, 0, 0, 0}, MOST_SAMPLES + 1, 0, 15}, {1, {31, 32, 0, 0}, MOST_SAMPLES + 1, 0, 15},
        {1, {31, 31, 32, 0}, MOST_SAMPLES + 1, 0, 15}, {1, {31, 31, 31, 32}, MOST_SAMPLES + 1, 0, 15},
        {1, {256, 0, 0, 0}, 1, 0, 15}, {1, {0, UINT32_MAX, 0, 0}, 0, 0, 15},
        {1, {31, 31, 31, 31}, MOST_SAMPLES + 1, 0, 5}, {1, {0, 0, 0, 0}, MOST_SAMPLES + 1, MOST_BYTES, 5},
        {1, {31, 0, 0, 0}, MOST_SAMPLES, 31 * (MOST_SAMPLES / 8) - 1, 3},
        {1, {1, 0, 0, 0}, 1, 0, 3}, {1, {3, 0, 0, 0}, 3, 1, 3}, {1, {8, 0, 0, 0}, 2, 1, 3}};
    static const struct refusal back[] = {
        {0, {32, 32, 32, 32}, MOST_SAMPLES + 1, 0, 6}, {0, {0, 0, 0, 0}, 1, 4, 6},
        {1, {32, 2, 0, 0}, MOST_SAMPLES + 1, 0, 15}, {1, {31, 32, 0, 0}, MOST_SAMPLES + 1, 0, 15},
        {1, {31, 2, 32, 0}, MOST_SAMPLES + 1, 0, 15}, {1, {31, 2, 31, 32}, MOST_SAMPLES + 1, 0, 15},
        {1, {256, 2, 0, 0}, 1, 0, 15}, {1, {0, UINT32_MAX, 0, 0}, 0, 0, 15},
        {1, {31, 2, 31, 31}, MOST_SAMPLES + 1, 0, 5}, {1, {0, 0, 0, 0}, MOST_SAMPLES + 1, MOST_BYTES, 5},
        {1, {31, 2, 0, 0}, MOST_SAMPLES, MOST_BYTES - 1, 11}, {1, {0, 0, 0, 0}, 1, 3, 11},
        {1, {1, 0, 2, 0}, 2, 7, 11}, {1, {31, 2, 0, 0}, MOST_SAMPLES, MOST_BYTES, 16},
        {1, {0, 1, 0, 0}, 1, 4, 16}, {1, {0, 0, 2, 0}, 1, 4, 16}, {1, {0, 0, 0, 2}, 1, 4, 16},
        {1, {5, 0, 0, 1}, 2, 8, 16}};
    refused(reassemble, there, sizeof there / sizeof *there);
    refused(deconstruct, back, sizeof back / sizeof *back);
}

/* The last sample alone is the image of no sample. */
static void refused_by_the_last(void)
{
    static const uint32_t field[4] = {8, 3, 0, 0};
    uint32_t answer[1] = {77};
    for (size_t i = 0; i < MOST_SAMPLES; i++)
        many[i] = 8;
    many[MOST_SAMPLES - 1] = 12;
    memset(literal, 77, sizeof literal);
    expect("a last sample of 12", deconstruct(field, many, MOST_SAMPLES, MOST_BYTES, answer, 1), 16);
    for (size_t i = 0; i < MOST_SAMPLES; i++)
        expect("a sample before it", many[i], i < MOST_SAMPLES - 1 ? 8 : 12);
    for (size_t i = 0; i < sizeof literal; i++)
        expect("a literal byte before it", literal[i], 77);
    expect("the answer", answer[0], 77);
}

/* No samples want no literal byte, either way. */
static void no_samples(void)
{
    static const uint32_t field[4] = {31, 31, 0, 0};
    uint32_t answer[1] = {77};
    expect("wv_reassemble_int32 of none", reassemble(field, many, 0, 0, answer, 1), 0);
    expect("the bits of none", answer[0], 0);
    answer[0] = 77;
    expect("wv_deconstruct_int32 of none", deconstruct(field, many, 0, 0, answer, 1), 0);
    expect("the bits of none", answer[0], 0);
}

void wide_recordings(void)
{
    by_hand();
    longest(13, 3);
    longest(31, 0);
    longest(0, 3);
    no_samples();
    refused_ways();
    refused_by_the_last();
}
