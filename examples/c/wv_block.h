/* A block of a .wv file, by the steps of docs/WV_FILES.md: wv_block.c has the steps 1 to 4, which find its
   parts and make its passes, and wv_samples.c the steps 5 to 8, which give its samples and test them. */
#ifndef WV_BLOCK_H
#define WV_BLOCK_H

#include <stddef.h>
#include <stdint.h>
#include "wavpack_stereo.h"

/* Bytes of a file. Where there are none the address is not null either, as the library asks. */
struct block_bytes { const uint8_t *at; size_t count; };
#define BLOCK_EMPTY ((struct block_bytes){(const uint8_t *)"", 0})

/* Takes the first bytes off, if there are as many. */
int block_take(struct block_bytes *from, size_t count, struct block_bytes *taken);

/* The number in four bytes. */
uint32_t block_number(const uint8_t *at);

/* The header: its length, where its numbers stand, and flags. */
enum { BLOCK_HEADER = 32 };
enum { BLOCK_SIZE = 4, BLOCK_VERSION = 8, BLOCK_TOTAL = 12, BLOCK_FIRST = 16, BLOCK_FRAMES = 20 };
enum { BLOCK_FLAGS = 24, BLOCK_SAMPLES_SUM = 28 };
#define BLOCK_JOINT (UINT32_C(1) << 4)
#define BLOCK_LARGE (UINT32_C(1) << 8)

/* Whether a block is decoded, and why not. `what` is what the block holds or which checksum is wrong. */
enum block_kind { BLOCK_GOOD, BLOCK_HOLDS, BLOCK_REFUSED, BLOCK_DAMAGED };
struct block_outcome { enum block_kind kind; const char *what; uint32_t refusal, found, stored; };
extern const struct block_outcome block_good;
struct block_outcome block_holds(const char *what);
struct block_outcome block_refused(uint32_t refusal);
struct block_outcome block_compared(const char *what, uint32_t found, uint32_t stored);

/* The outcome in words, "good" or why not, into a text that the caller lends. */
enum { BLOCK_TEXT = 160 };
void block_text(struct block_outcome outcome, char text[BLOCK_TEXT]);

/* The sub-blocks by their ids, empty where the block has none; FIELDS and LOW_BITS are those of large
   integers. After them stand the bytes that the checksum in BYTES_SUM covers. */
enum { BLOCK_TERMS = 0x02, BLOCK_WEIGHTS = 0x03, BLOCK_SEEDS = 0x04, BLOCK_ENTROPY = 0x05 };
enum { BLOCK_FIELDS = 0x09, BLOCK_PAYLOAD = 0x0a, BLOCK_LOW_BITS = 0x0c, BLOCK_BYTES_SUM = 0x2f };
enum { BLOCK_SUMMED = 0x40, BLOCK_PARTS };
struct block_outcome block_find_parts(struct block_bytes block, struct block_bytes parts[BLOCK_PARTS]);

/* The passes in the order in which they run, WV_MAX_PASSES at most: a file stores the last one first. */
struct block_outcome block_make_passes(const struct block_bytes parts[BLOCK_PARTS], int32_t *passes);

/* The samples of a block, left then right, and its parts. A block that is not decoded may have written
   some of the samples. */
struct block_outcome block_decode(struct block_bytes block, struct block_bytes parts[BLOCK_PARTS],
                                  int32_t *samples, size_t samples_len);

#endif
