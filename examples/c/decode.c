/* Decodes a recording as the program `wvpair` reads it, and prints its frames and then the bits that were
   read for each stem: decode FILE
   FILE has 12 entropy bytes, the number of frames in 2 bytes, the low one first, and the payload. Where the
   recording is refused it prints what was read before the refusal, and why it was refused; the exit status
   is then 1. */
#include <inttypes.h>
#include <stdio.h>
#include <stdlib.h>
#include "wavpack_stereo.h"

enum { FRAMES = WV_ENTROPY_BYTES, PAYLOAD = FRAMES + 2, MOST_FRAMES = 65535 };
/* The slots of the answer that are used here. */
enum { WRITTEN = 7, LEFT_BITS, RIGHT_BITS };

/* Decodes the bytes of a file, and answers whether the recording was accepted. */
static int decode(const uint8_t *file, size_t count, int32_t *samples)
{
    uint32_t answer[WV_READ_SLOTS];
    size_t frames = file[FRAMES] | (size_t)file[FRAMES + 1] << 8;
    uint32_t refusal = wv_read(file, WV_ENTROPY_BYTES, file + PAYLOAD, count - PAYLOAD, frames, samples,
                               2 * frames, answer, WV_READ_SLOTS);
    for (uint32_t i = 0; i + 1 < answer[WRITTEN]; i += 2)
        printf("%" PRId32 " %" PRId32 "\n", samples[i], samples[i + 1]);
    printf("bits: left %" PRIu32 ", right %" PRIu32 "\n", answer[LEFT_BITS], answer[RIGHT_BITS]);
    fflush(stdout);
    if (refusal != WV_ACCEPTED)
        fprintf(stderr, "refused, %" PRIu32 ": %s\n", refusal, wv_refusal_text(refusal));
    return refusal == WV_ACCEPTED;
}

int main(int words, char **word)
{
    /* A byte more than a recording may have, so that a longer one is refused and not cut. */
    size_t room = PAYLOAD + (size_t)WV_MAX_PAYLOAD_BYTES + 1;
    FILE *in = words == 2 ? fopen(word[1], "rb") : NULL;
    uint8_t *file = malloc(room);
    int32_t *samples = malloc(2 * MOST_FRAMES * sizeof *samples);
    size_t count = in && file ? fread(file, 1, room, in) : 0;
    int accepted = 0;
    if (words != 2)
        fputs("usage: decode FILE\n", stderr);
    else if (!samples || count < PAYLOAD)
        fprintf(stderr, "%s: no recording of at least %d bytes can be read\n", word[1], PAYLOAD);
    else
        accepted = decode(file, count, samples);
    free(samples);
    free(file);
    if (in)
        fclose(in);
    return accepted ? EXIT_SUCCESS : EXIT_FAILURE;
}
