/* Whole decoding with the library, by the steps of docs/WV_FILES.md, straight into the samples of the
   file. */
#include <string.h>
#include "turns.h"
#include "wv_block.h"

/* Decodes a block into the samples that have room left, and stops where it is not decoded, or was not held to
   what libwavpack tests too: the checksum of the bytes in the length in which wavpack writes it. */
static void decode_block(struct recording *recording, struct block_bytes block, int32_t *samples, size_t room)
{
    struct block_bytes parts[BLOCK_PARTS];
    char text[BLOCK_TEXT];
    struct block_outcome outcome = block_decode(block, parts, samples, room);
    if (outcome.kind == BLOCK_GOOD && parts[BLOCK_FIELDS].count > 0)
        outcome = block_holds("large integers");
    if (outcome.kind == BLOCK_GOOD && parts[BLOCK_BYTES_SUM].count != 4)
        outcome = block_holds("no checksum of the bytes");
    if (outcome.kind != BLOCK_GOOD) {
        block_text(outcome, text);
        stop(recording->name, text);
    }
    if (parts[BLOCK_TERMS].count > recording->passes)
        recording->passes = parts[BLOCK_TERMS].count;
}

void decode(struct recording *recording)
{
    struct block_bytes rest = {recording->file, recording->size}, block;
    size_t done = 0;
    while (rest.count >= BLOCK_HEADER && memcmp(rest.at, "wvpk", 4) == 0) {
        size_t frames = block_number(rest.at + BLOCK_FRAMES), left = recording->frames - done;
        if (!block_take(&rest, 8 + (size_t)block_number(rest.at + BLOCK_SIZE), &block))
            stop(recording->name, "a block past the end of the file");
        if (frames > left)
            stop(recording->name, "more frames than its first block reports");
        if (frames > 0)
            decode_block(recording, block, recording->samples + 2 * done, 2 * left);
        done += frames;
    }
    if (done < recording->frames)
        stop(recording->name, "fewer frames than its first block reports");
}
