/* What both programs share: packed files in memory, decoded several times, one after the other and at the
   same time. */
#ifndef TURNS_H
#define TURNS_H

#include <stddef.h>
#include <stdint.h>

/* A packed file, and the place of its samples, left and right in turn; passes are the most that a block
   has. */
struct recording { const char *name; uint8_t *file; size_t size; int32_t *samples; size_t frames, passes; };

/* Decodes a whole file, all of which is timed. Each program has its own. It is called for different
   recordings at the same time, and does not come back where a frame is not decoded. */
void decode(struct recording *recording);

/* Prints why a file is not decoded, and ends the program with status 1. */
_Noreturn void stop(const char *name, const char *why);

#endif
