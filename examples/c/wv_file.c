/* Decodes .wv files block by block: wv_file FILE...
   Prints for each block whether it was decoded with the right checksums, or why not, and for each file the
   CRC-32 of its samples in as many bytes as the file gives them. The exit status is 1 where a file cannot be
   read, where any of its frames are not decoded, and where it has none. */
#include <errno.h>
#include <inttypes.h>
#include <stdio.h>
#include <stdlib.h>
#include <string.h>
#include "wv_block.h"

#define UNKNOWN UINT32_MAX /* frames in a file that was written without knowing it */

/* Adds the low bytes of a sample to a CRC-32, as zlib has it. */
static uint32_t crc32(uint32_t crc, uint32_t sample, size_t bytes)
{
    crc = ~crc;
    for (size_t bit = 0; bit < 8 * bytes; bit++)
        crc = crc >> 1 ^ ((crc ^ sample >> bit) & 1 ? UINT32_C(0xedb88320) : 0);
    return ~crc;
}

/* What is known of a file after some of its blocks. */
struct progress { uint32_t blocks, total, crc; uint64_t decoded; int whole; };

/* Decodes a block of a file; one that the file ends within is empty. */
static void add_block(struct progress *file, const uint8_t *header, struct block_bytes block,
                      int32_t *samples, size_t samples_len)
{
    struct block_bytes parts[BLOCK_PARTS];
    char text[BLOCK_TEXT];
    uint32_t frames = block_number(header + BLOCK_FRAMES);
    size_t bytes = 1 + (block_number(header + BLOCK_FLAGS) & 3);
    if (file->blocks++ == 0)
        file->total = block_number(header + BLOCK_TOTAL);
    if (frames == 0) {
        puts("  no frames");
        return;
    }
    struct block_outcome outcome = block_decode(block, parts, samples, samples_len);
    block_text(outcome, text);
    printf("  %" PRIu32 " frames from %" PRIu32, frames, block_number(header + BLOCK_FIRST));
    printf(" on: %s\n", text);
    if (outcome.kind != BLOCK_GOOD) {
        file->whole = 0;
        return;
    }
    for (size_t i = 0; i < 2 * (size_t)frames; i++)
        file->crc = crc32(file->crc, (uint32_t)samples[i], bytes);
    file->decoded += frames;
}

/* Decodes a file, and answers whether it has frames and all of them were decoded. */
static int decode_file(struct block_bytes rest, int32_t *samples, size_t samples_len)
{
    struct progress file = {.whole = 1};
    while (rest.count >= BLOCK_HEADER && memcmp(rest.at, "wvpk", 4) == 0) {
        const uint8_t *header = rest.at;
        struct block_bytes block;
        if (!block_take(&rest, 8 + (size_t)block_number(header + BLOCK_SIZE), &block))
            block = rest = BLOCK_EMPTY;
        add_block(&file, header, block, samples, samples_len);
    }
    if (file.blocks == 0) {
        puts("  no block at its start: this is no .wv file");
        return 0;
    }
    printf("  %" PRIu64 " of %" PRIu32 " frames decoded, ", file.decoded, file.total);
    printf("CRC-32 %08" PRIx32 ", %zu bytes after the last block\n", file.crc, rest.count);
    return file.whole && file.decoded > 0 && (file.decoded == file.total || file.total == UNKNOWN);
}

/* All bytes of an open file; null, with errno set, where they cannot be read. */
static uint8_t *read_all(FILE *file, size_t *count)
{
    uint8_t *bytes = NULL;
    size_t room = 0;
    for (*count = 0; !ferror(file) && !feof(file);) {
        if (*count == room) {
            uint8_t *larger = realloc(bytes, room = 2 * room + 65536);
            if (!larger)
                break;
            bytes = larger;
        }
        *count += fread(bytes + *count, 1, room - *count, file);
    }
    if (feof(file) && !ferror(file))
        return bytes;
    free(bytes);
    return NULL;
}

/* Decodes the file with a name, and answers whether all of it was decoded. */
static int decode_named(const char *name, int32_t *samples, size_t samples_len)
{
    size_t count;
    FILE *file = fopen(name, "rb");
    uint8_t *bytes = file ? read_all(file, &count) : NULL;
    int whole = 0;
    if (!bytes) {
        fprintf(stderr, "%s: %s\n", name, strerror(errno));
    } else {
        puts(name);
        whole = decode_file((struct block_bytes){bytes, count}, samples, samples_len);
    }
    free(bytes);
    if (file)
        fclose(file);
    return whole;
}

int main(int words, char **word)
{
    size_t samples_len = WV_MAX_ELEMENTS;
    int32_t *samples = malloc(samples_len * sizeof *samples);
    int whole = words > 1 && samples;
    if (words < 2)
        fputs("usage: wv_file FILE...\n", stderr);
    else if (!samples)
        fputs("wv_file: no memory\n", stderr);
    for (int i = 1; i < words && samples; i++)
        whole = decode_named(word[i], samples, samples_len) && whole;
    free(samples);
    return whole ? EXIT_SUCCESS : EXIT_FAILURE;
}
