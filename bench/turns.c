/* The turns of a program: PROGRAM TIMES FILE [FILE]
   Decodes the files TIMES times and prints a line: a checksum of all samples, the passes of a block (0 where
   the decoder does not report them), and the milliseconds of the best time; of two files first those of one
   after the other in one thread, then those of both at the same time in two threads. */
#include "turns.h"
#include <inttypes.h>
#include <pthread.h>
#include <stdio.h>
#include <stdlib.h>
#include <string.h>
#include <time.h>

enum { MAX_FILES = 2, HEADER = 32, CHANNELS = 2 };

void stop(const char *name, const char *why)
{
    /* Never unlocked: a second thread that stops waits here for the end. */
    static pthread_mutex_t last_word = PTHREAD_MUTEX_INITIALIZER;
    pthread_mutex_lock(&last_word);
    fprintf(stderr, "%s: %s\n", name, why);
    exit(1);
}

static void *allocate(const char *name, size_t bytes)
{
    void *memory = malloc(bytes);
    if (!memory)
        stop(name, "no memory");
    return memory;
}

/* Reads a file, and makes room for as many frames as its first block reports. */
static struct recording read_file(const char *name)
{
    struct recording recording = {.name = name};
    FILE *file = fopen(name, "rb");
    long size = file && fseek(file, 0, SEEK_END) == 0 ? ftell(file) : -1;
    if (size < HEADER || fseek(file, 0, SEEK_SET) != 0)
        stop(name, "cannot be read, or is too short");
    recording.size = (size_t)size;
    recording.file = allocate(name, recording.size);
    if (fread(recording.file, 1, recording.size, file) != recording.size)
        stop(name, "cannot be read");
    fclose(file);
    const uint8_t *total = recording.file + 12;
    recording.frames = total[0] | (size_t)total[1] << 8 | (size_t)total[2] << 16 | (size_t)total[3] << 24;
    if (recording.frames == UINT32_MAX)
        stop(name, "does not report its frames");
    recording.samples = allocate(name, CHANNELS * recording.frames * sizeof *recording.samples);
    return recording;
}

static void one_after_the_other(struct recording *recordings, size_t count)
{
    for (size_t i = 0; i < count; i++)
        decode(&recordings[i]);
}

static void *decode_one(void *recording)
{
    decode(recording);
    return NULL;
}

static void at_once(struct recording *recordings, size_t count)
{
    pthread_t threads[MAX_FILES];
    for (size_t i = 0; i < count; i++)
        if (pthread_create(&threads[i], NULL, decode_one, &recordings[i]) != 0)
            stop(recordings[i].name, "no thread");
    for (size_t i = 0; i < count; i++)
        pthread_join(threads[i], NULL);
}

static double milliseconds(void)
{
    struct timespec now;
    clock_gettime(CLOCK_MONOTONIC, &now);
    return 1e3 * (double)now.tv_sec + 1e-6 * (double)now.tv_nsec;
}

typedef void decode_all(struct recording *recordings, size_t count);

/* The milliseconds of the best time. Before it the samples are wiped, so that what was decoded earlier does
   not pass for what is decoded now, and decoded once, so that pages and caches are there. */
static double best(long times, decode_all *all, struct recording *recordings, size_t count)
{
    double least = 0;
    for (size_t i = 0; i < count; i++)
        memset(recordings[i].samples, 0x55, CHANNELS * recordings[i].frames * sizeof *recordings[i].samples);
    all(recordings, count);
    for (long i = 0; i < times; i++) {
        double start = milliseconds();
        all(recordings, count);
        double taken = milliseconds() - start;
        least = i == 0 || taken < least ? taken : least;
    }
    return least;
}

/* FNV-1a, by samples instead of bytes. */
static uint64_t checksum(const struct recording *recordings, size_t count)
{
    uint64_t sum = UINT64_C(0xcbf29ce484222325);
    for (size_t i = 0; i < count; i++)
        for (size_t j = 0; j < CHANNELS * recordings[i].frames; j++)
            sum = (sum ^ (uint32_t)recordings[i].samples[j]) * UINT64_C(0x100000001b3);
    return sum;
}

int main(int words, char **word)
{
    struct recording recordings[MAX_FILES];
    size_t count = words < 2 ? 0 : (size_t)words - 2;
    long times = words < 2 ? 0 : strtol(word[1], NULL, 10);
    if (count < 1 || count > MAX_FILES || times < 1)
        stop(word[0], "TIMES FILE [FILE]");
    for (size_t i = 0; i < count; i++)
        recordings[i] = read_file(word[2 + i]);
    double one = best(times, one_after_the_other, recordings, count);
    uint64_t sum = checksum(recordings, count);
    printf("%016" PRIx64 " %zu %.3f", sum, recordings[0].passes, one);
    if (count > 1) {
        printf(" %.3f", best(times, at_once, recordings, count));
        if (checksum(recordings, count) != sum)
            stop(word[0], "the threads decoded other samples");
    }
    puts("");
    for (size_t i = 0; i < count; i++) {
        free(recordings[i].file);
        free(recordings[i].samples);
    }
    return 0;
}
