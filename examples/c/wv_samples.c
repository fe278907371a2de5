/* The samples of a block, and the checksums that they are held to: steps 5 to 8 of docs/WV_FILES.md. */
#include "wv_block.h"

/* Left and right of joint stereo. The numbers are used without their sign, so that sums wrap; half of one
   keeps its sign bit. */
static void undo_joint_stereo(int32_t *samples, size_t count)
{
    uint32_t *number = (uint32_t *)samples;
    for (size_t i = 0; i + 1 < count; i += 2) {
        number[i + 1] -= number[i] >> 1 | (number[i] & UINT32_C(1) << 31);
        number[i] += number[i + 1];
    }
}

static uint32_t sum_of_samples(const int32_t *samples, size_t count)
{
    uint32_t sum = UINT32_MAX;
    for (size_t i = 0; i + 1 < count; i += 2)
        sum = 9 * sum + 3 * (uint32_t)samples[i] + (uint32_t)samples[i + 1];
    return sum;
}

/* Words, passes and joint stereo, held to the checksum of the header: large integers are still without
   their low bits. */
static struct block_outcome decode_words(const uint8_t *header, const struct block_bytes parts[BLOCK_PARTS],
                                         int32_t *samples, size_t count)
{
    int32_t passes[WV_PASS_SLOTS * WV_MAX_PASSES];
    uint32_t answer[WV_READ_SLOTS];
    struct block_bytes entropy = parts[BLOCK_ENTROPY], payload = parts[BLOCK_PAYLOAD];
    struct block_outcome outcome = block_make_passes(parts, passes);
    if (outcome.kind != BLOCK_GOOD)
        return outcome;
    uint32_t refusal = wv_read(entropy.at, entropy.count, payload.at, payload.count, count / 2, samples,
                               count, answer, WV_READ_SLOTS);
    if (refusal == WV_ACCEPTED)
        refusal = wv_decorrelate(passes, WV_PASS_SLOTS * parts[BLOCK_TERMS].count, samples, count);
    if (refusal != WV_ACCEPTED)
        return block_refused(refusal);
    if (block_number(header + BLOCK_FLAGS) & BLOCK_JOINT)
        undo_joint_stereo(samples, count);
    return block_compared("checksum", sum_of_samples(samples, count),
                          block_number(header + BLOCK_SAMPLES_SUM));
}

/* Puts the low bits of large integers back, and holds the samples to the extension checksum, which stands
   before the literal bits. */
static struct block_outcome put_low_bits(const uint8_t *fields, struct block_bytes literal, int32_t *samples,
                                         size_t count)
{
    struct block_bytes stored = BLOCK_EMPTY;
    uint32_t found = UINT32_MAX, bits;
    if (literal.count > 0 && !block_take(&literal, 4, &stored))
        return block_holds("a part of a checksum");
    uint32_t refusal = wv_reassemble_int32(fields[0], fields[1], fields[2], fields[3], samples, count,
                                           literal.at, literal.count, &bits, WV_REASSEMBLE_INT32_SLOTS);
    if (refusal != WV_ACCEPTED)
        return block_refused(refusal);
    for (size_t i = 0; i < count; i++)
        found = 9 * found + 3 * ((uint32_t)samples[i] & 0xffff) + ((uint32_t)samples[i] >> 16);
    if (stored.count == 0)
        return block_good;
    return block_compared("extension checksum", found, block_number(stored.at));
}

/* Finishes large integers. Other blocks are finished, and have no part of them. */
static struct block_outcome finish(const uint8_t *header, const struct block_bytes parts[BLOCK_PARTS],
                                   int32_t *samples, size_t count)
{
    int large = (block_number(header + BLOCK_FLAGS) & BLOCK_LARGE) != 0;
    if (large && parts[BLOCK_FIELDS].count == 4)
        return put_low_bits(parts[BLOCK_FIELDS].at, parts[BLOCK_LOW_BITS], samples, count);
    if (large || parts[BLOCK_FIELDS].count > 0 || parts[BLOCK_LOW_BITS].count > 0)
        return block_holds("large integers without flag or fields");
    return block_good;
}

/* Holds the bytes of a block to their checksum, where they have one: the only one that finds another field
   of large integers without literal bits. */
static struct block_outcome test_bytes(const struct block_bytes parts[BLOCK_PARTS])
{
    struct block_bytes stored = parts[BLOCK_BYTES_SUM], summed = parts[BLOCK_SUMMED];
    uint32_t found = UINT32_MAX;
    if (summed.count == 0)
        return block_good;
    for (size_t i = 0; i + 1 < summed.count; i += 2)
        found = 3 * found + (summed.at[i] | (uint32_t)summed.at[i + 1] << 8);
    if (stored.count == 4)
        return block_compared("checksum of the bytes", found, block_number(stored.at));
    if (stored.count != 2)
        return block_holds("a part of a checksum");
    return block_compared("checksum of the bytes", (found ^ found >> 16) & 0xffff,
                          stored.at[0] | (uint32_t)stored.at[1] << 8);
}

struct block_outcome block_decode(struct block_bytes block, struct block_bytes parts[BLOCK_PARTS],
                                  int32_t *samples, size_t samples_len)
{
    struct block_outcome outcome = block_find_parts(block, parts);
    if (outcome.kind != BLOCK_GOOD)
        return outcome;
    size_t count = 2 * (size_t)block_number(block.at + BLOCK_FRAMES);
    if (count > samples_len)
        return block_refused(WV_OUTPUT_TOO_SHORT);
    outcome = decode_words(block.at, parts, samples, count);
    if (outcome.kind == BLOCK_GOOD)
        outcome = finish(block.at, parts, samples, count);
    return outcome.kind == BLOCK_GOOD ? test_bytes(parts) : outcome;
}
