/* The parts of a block and its passes: steps 1 to 4 of docs/WV_FILES.md. */
#include "wv_block.h"
#include <inttypes.h>
#include <stdio.h>

#define ALONE (UINT32_C(3) << 11) /* of a block that is the first and the last one of its frames */

/* The flags of blocks that are not decoded, and what such a block holds. */
static const struct { uint32_t bits; const char *what; } not_decoded[6] = {
    {UINT32_C(1) << 2, "mono"}, {UINT32_C(1) << 3, "hybrid"}, {UINT32_C(1) << 7, "floats"},
    {UINT32_C(31) << 13, "shifted"}, {UINT32_C(1) << 30, "false stereo"}, {UINT32_C(1) << 31, "DSD"}};

/* Ids that are passed over, as are all from OPTIONAL on. */
enum { DUMMY = 0x00, CHANNELS = 0x0d, OPTIONAL = 0x20 };

const struct block_outcome block_good = {.kind = BLOCK_GOOD};

int block_take(struct block_bytes *from, size_t count, struct block_bytes *taken)
{
    if (count > from->count)
        return 0;
    *taken = (struct block_bytes){from->at, count};
    *from = (struct block_bytes){from->at + count, from->count - count};
    return 1;
}

uint32_t block_number(const uint8_t *at)
{
    return at[0] | (uint32_t)at[1] << 8 | (uint32_t)at[2] << 16 | (uint32_t)at[3] << 24;
}

struct block_outcome block_holds(const char *what)
{
    return (struct block_outcome){.kind = BLOCK_HOLDS, .what = what};
}

struct block_outcome block_refused(uint32_t refusal)
{
    enum block_kind kind = refusal == WV_ACCEPTED ? BLOCK_GOOD : BLOCK_REFUSED;
    return (struct block_outcome){.kind = kind, .refusal = refusal};
}

struct block_outcome block_compared(const char *what, uint32_t found, uint32_t stored)
{
    enum block_kind kind = found == stored ? BLOCK_GOOD : BLOCK_DAMAGED;
    return (struct block_outcome){.kind = kind, .what = what, .found = found, .stored = stored};
}

void block_text(struct block_outcome outcome, char text[BLOCK_TEXT])
{
    switch (outcome.kind) {
    case BLOCK_GOOD:
        snprintf(text, BLOCK_TEXT, "good");
        break;
    case BLOCK_HOLDS:
        snprintf(text, BLOCK_TEXT, "not decoded: %s", outcome.what);
        break;
    case BLOCK_REFUSED:
        snprintf(text, BLOCK_TEXT, "not decoded: refusal %" PRIu32 ", %s", outcome.refusal,
                 wv_refusal_text(outcome.refusal));
        break;
    case BLOCK_DAMAGED:
        snprintf(text, BLOCK_TEXT, "damaged: the %s is %08" PRIx32 ", not %08" PRIx32, outcome.what,
                 outcome.found, outcome.stored);
        break;
    }
}

/* Refuses what the library does not decode: it would read other samples from it. */
static struct block_outcome test_header(const uint8_t *header)
{
    uint32_t flags = block_number(header + BLOCK_FLAGS);
    uint32_t version = block_number(header + BLOCK_VERSION) & 0xffff;
    for (size_t i = 0; i < 6; i++)
        if (flags & not_decoded[i].bits)
            return block_holds(not_decoded[i].what);
    if ((flags & ALONE) != ALONE)
        return block_holds("several channels");
    if (version < 0x402 || version > 0x410)
        return block_holds("another version");
    return block_refused(block_number(header + BLOCK_FRAMES) > WV_MAX_FRAMES ? WV_TOO_LARGE : WV_ACCEPTED);
}

/* Takes a sub-block off. */
static int take_part(struct block_bytes *body, uint8_t *id, struct block_bytes *data)
{
    struct block_bytes head;
    int large = body->count > 0 && body->at[0] & 0x80;
    if (!block_take(body, large ? 4 : 2, &head))
        return 0;
    size_t words = head.at[1] | (large ? (size_t)head.at[2] << 8 | (size_t)head.at[3] << 16 : 0);
    size_t padding = head.at[0] >> 6 & 1;
    if (!block_take(body, 2 * words, data) || data->count < padding)
        return 0;
    data->count -= padding;
    *id = head.at[0] & 0x3f;
    return 1;
}

static int known(uint8_t id)
{
    switch (id) {
    case DUMMY: case CHANNELS:
    case BLOCK_TERMS: case BLOCK_WEIGHTS: case BLOCK_SEEDS: case BLOCK_ENTROPY:
    case BLOCK_FIELDS: case BLOCK_PAYLOAD: case BLOCK_LOW_BITS:
        return 1;
    default:
        return id >= OPTIONAL;
    }
}

struct block_outcome block_find_parts(struct block_bytes block, struct block_bytes parts[BLOCK_PARTS])
{
    struct block_bytes body = block, data;
    uint8_t id;
    for (size_t i = 0; i < BLOCK_PARTS; i++)
        parts[i] = BLOCK_EMPTY;
    if (!block_take(&body, BLOCK_HEADER, &data))
        return block_holds("cut short");
    struct block_outcome outcome = test_header(block.at);
    while (outcome.kind == BLOCK_GOOD && body.count > 0) {
        struct block_bytes before = {block.at, block.count - body.count};
        if (!take_part(&body, &id, &data))
            return block_holds("a sub-block past its end");
        if (!known(id))
            return block_holds("an unknown sub-block");
        parts[id] = data;
        if (id == BLOCK_BYTES_SUM)
            parts[BLOCK_SUMMED] = before;
    }
    return outcome;
}

/* The log word in two bytes. */
static int16_t log_word(const uint8_t *at)
{
    int32_t word = at[0] | at[1] << 8;
    return (int16_t)(word < 0x8000 ? word : word - 0x10000);
}

/* Takes the seeds of a term off, A's and B's, each newest first; none where no more are stored. */
static struct block_outcome take_seeds(int32_t term, struct block_bytes *stored, int32_t seeds[2][8],
                                       size_t *count)
{
    struct block_bytes mine;
    size_t each = term >= 1 && term <= 8 ? (size_t)term : term == 17 || term == 18 ? 2 : 1;
    *count = stored->count > 0 ? each : 0;
    if (!block_take(stored, 4 * *count, &mine))
        return block_holds("a part of a pass's seeds");
    for (size_t i = 0; i < 2 * *count; i++) {
        int32_t value;
        uint32_t refusal = wv_log_word(log_word(mine.at + 2 * i), &value, WV_LOG_WORD_SLOTS);
        if (refusal != WV_ACCEPTED)
            return block_refused(refusal);
        if (term == 17 || term == 18)
            seeds[i / 2][i % 2] = value;
        else if (term == -3)
            seeds[1 - i][0] = value;
        else
            seeds[i % 2][each - 1 - i / 2] = value;
    }
    return block_good;
}

/* Takes what is stored of a pass off, and makes it. */
static struct block_outcome make_pass(uint8_t term_byte, struct block_bytes *weights,
                                      struct block_bytes *seeds, int32_t *pass)
{
    int32_t term[WV_TERM_BYTE_SLOTS], weight[2] = {0, 0}, seed[2][8];
    struct block_bytes pair = {(const uint8_t *)"\0", 2};
    size_t count;
    if (weights->count > 0 && !block_take(weights, 2, &pair))
        return block_holds("half a pair of weights");
    wv_term_byte(term_byte, term, WV_TERM_BYTE_SLOTS);
    wv_weight_byte(pair.at[0], &weight[0], WV_WEIGHT_BYTE_SLOTS);
    wv_weight_byte(pair.at[1], &weight[1], WV_WEIGHT_BYTE_SLOTS);
    struct block_outcome outcome = take_seeds(term[0], seeds, seed, &count);
    if (outcome.kind != BLOCK_GOOD)
        return outcome;
    return block_refused(wv_pass((int8_t)term[0], term[1], weight[0], weight[1], seed[0], count, seed[1],
                                 count, pass, WV_PASS_SLOTS));
}

struct block_outcome block_make_passes(const struct block_bytes parts[BLOCK_PARTS], int32_t *passes)
{
    struct block_bytes terms = parts[BLOCK_TERMS], weights = parts[BLOCK_WEIGHTS], seeds = parts[BLOCK_SEEDS];
    if (terms.count > WV_MAX_PASSES)
        return block_refused(WV_TOO_MANY_PASSES);
    for (size_t i = 0; i < terms.count; i++) {
        int32_t *pass = passes + WV_PASS_SLOTS * (terms.count - 1 - i);
        struct block_outcome outcome = make_pass(terms.at[i], &weights, &seeds, pass);
        if (outcome.kind != BLOCK_GOOD)
            return outcome;
    }
    return block_good;
}
