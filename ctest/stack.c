/* Measures the stack that each function of the library needs, and prints a row of a table for each.
   A call runs on a stack of its own that was filled with a pattern; how far down the pattern is gone
   is what the call needed: the bytes below the caller's stack pointer, return address and stack
   arguments included, the most of many inputs. */
#define _GNU_SOURCE
#include <stdint.h>
#include <stdio.h>
#include <stdlib.h>
#include <string.h>
#include <ucontext.h>
#include "wavpack_stereo.h"

enum { STACK = 1 << 18, PATTERN = 0xa5, ROUNDS = 2000, FRAMES = 64, MOST_PASSES = 17 };
enum { TWO_LINES = 4 * WV_LINE_FRAMES, KEPT = 6, KEPT_BYTES = 2 * WV_ARCHIVE_BLOCK_BYTES };

static unsigned char stack[STACK];
static unsigned char *above;
static ucontext_t here, there;

/* Calls, and remembers the stack pointer from which it does. */
#define CALL(call)                                              \
    do {                                                        \
        __asm__ volatile("mov %%rsp, %0" : "=r"(above)::"memory"); \
        (void)(call);                                           \
    } while (0)

/* A generator of numbers that repeats (SplitMix64). */
static uint64_t state;
static uint64_t next(void)
{
    uint64_t z = state += 0x9e3779b97f4a7c15u;
    z = (z ^ (z >> 30)) * 0xbf58476d1ce4e5b9u;
    z = (z ^ (z >> 27)) * 0x94d049bb133111ebu;
    return z ^ (z >> 31);
}

static uint8_t entropy[12], payload[64 * FRAMES], out[28 * FRAMES], file[44 + 4 * FRAMES],
    archive[KEPT * KEPT_BYTES];
static int32_t numbers[2 * FRAMES], sounds[2 * FRAMES], wide[2 * FRAMES], blocks[TWO_LINES],
    passes[20 * MOST_PASSES], seed[8];
static uint32_t answer[15], report[2], field[4], listed[4 * KEPT];

/* Entropy payloads that reading accepts, payloads with many ones, numbers of any size; as a word state
   totals that its place allows. */
static void fill(void)
{
    for (size_t i = 0; i < 12; i++)
        entropy[i] = (uint8_t)(i % 2 ? next() % 32 : next());
    for (size_t i = 0; i < sizeof payload; i++)
        payload[i] = (uint8_t)(next() | (next() & next()));
    for (size_t i = 0; i < 2 * FRAMES; i++)
        numbers[i] = (int32_t)next() >> (2 + next() % 30);
    for (size_t i = 0; i < 20 * MOST_PASSES; i++)
        passes[i] = (int32_t)next() >> next() % 32;
    for (size_t i = 0; i < 15; i++)
        answer[i] = (uint32_t)next() >> next() % 32;
    answer[0] %= 8 * sizeof payload;
    answer[1] %= 2;
    answer[4] %= 4 * (next() % 8 == 0) + 1;
    answer[13] %= answer[0] + 1;
    answer[14] %= answer[0] - answer[13] + 1;
}

/* Valid terms, now and then one that is not. */
static void fill_terms(void)
{
    static const int8_t terms[13] = {1, 2, 3, 4, 5, 6, 7, 8, 17, 18, -1, -2, -3};
    for (size_t i = 0; i < MOST_PASSES; i++)
        passes[20 * i] = next() % 200 ? terms[next() % 13] : 9;
}

/* A sound file and its samples, now and then one of them with a fault. */
static void fill_sounds(void)
{
    for (size_t i = 0; i < 2 * FRAMES; i++)
        sounds[i] = (int16_t)next();
    wv_wave_export((uint32_t)(1 + next() % 192000), sounds, 2 * FRAMES, file, sizeof file, report, 1);
    file[next() % 44] ^= next() % 8 == 0;
    sounds[next() % (2 * FRAMES)] += next() % 8 == 0 ? 65536 : 0;
}

/* The samples of two lines of a page: the numbers of the passes, which are of any size, and the least
   number among them. */
static void fill_blocks(void)
{
    for (size_t i = 0; i < TWO_LINES; i++)
        blocks[i] = i % 7 ? passes[i % (20 * MOST_PASSES)] : INT32_MIN;
}

/* Fields, of which now and then one is above 31, and samples that they complete, now and then with a
   fault. */
static void fill_wide(void)
{
    for (size_t i = 0; i < 4; i++)
        field[i] = (uint32_t)(next() % 33 * (next() % 3 != 0));
    for (size_t i = 0; i < 2 * FRAMES; i++)
        wide[i] = (int32_t)next();
    wv_reassemble_int32(field[0], field[1], field[2], field[3], wide, 2 * FRAMES, payload, sizeof payload,
                        report, 1);
    wide[next() % (2 * FRAMES)] ^= next() % 8 == 0;
}

/* An archive of recordings in two blocks each, at times with a fault or with the same one twice. Its
   numbers are bytes of the payload, so that the other functions get the inputs that they had without it. */
static void fill_archive(void)
{
    for (size_t i = 0; i < KEPT; i++)
        wv_archive_write(payload[i] % 4, 86400, payload[i + KEPT] % 16, payload, 493 + 2 * payload[i] % 504,
                         archive + i * KEPT_BYTES, KEPT_BYTES, report, 1);
    archive[24 * payload[2 * KEPT]] ^= payload[0] % 8 == 0;
}

static void log_word(void) { CALL(wv_log_word((int16_t)next(), numbers, 1)); }
static void term_byte(void) { CALL(wv_term_byte((uint8_t)next(), numbers, 2)); }
static void weight_byte(void) { CALL(wv_weight_byte((uint8_t)next(), numbers, 1)); }
static void medians(void) { CALL(wv_entropy(entropy, next() % 2 ? 12 : 6, numbers, 6)); }
static void word(void) { CALL(wv_word(payload, sizeof payload, answer, 15, numbers, 1, report, 2)); }
static void reading(void)
{
    CALL(wv_read(entropy, 12, payload, sizeof payload, FRAMES, numbers, 2 * FRAMES, answer, 10));
}
static void making(void) { CALL(wv_pass((int8_t)passes[0], 2, 3, 4, seed, 8, seed, 8, passes + 20, 20)); }
static void decorrelation(void) { CALL(wv_decorrelate(passes, 20 * (next() % 18), numbers, 2 * FRAMES)); }
static void analysis(void) { CALL(wv_analyse(passes, 20 * (next() % 18), numbers, 2 * FRAMES)); }
static void packing(void)
{
    CALL(wv_pack(numbers, 2 * FRAMES, entropy, 12, FRAMES, out, sizeof out, answer, 7));
}
static void exporting(void) { CALL(wv_wave_export(44100, sounds, 2 * FRAMES, out, sizeof out, answer, 1)); }
static void importing(void) { CALL(wv_wave_import(file, sizeof file, numbers, 2 * FRAMES, answer, 2)); }
static void paging(void)
{
    CALL(wv_morning_page(blocks, next() % (TWO_LINES + 1), answer[2], out, sizeof out, answer, 1));
}
static void completing(void)
{
    const size_t bytes = next() % sizeof payload;
    CALL(wv_reassemble_int32(field[0], field[1], field[2], field[3], numbers, 2 * FRAMES, payload, bytes,
                             answer, 1));
}
static void narrowing(void)
{
    const size_t bytes = next() % sizeof out;
    CALL(wv_deconstruct_int32(field[0], field[1], field[2], field[3], wide, 2 * FRAMES, out, bytes, answer,
                              1));
}

static void keeping(void)
{
    const size_t bytes = next() % sizeof payload;
    CALL(wv_archive_write(3, answer[2], 4, payload, bytes, out, sizeof out, answer, 1));
}
static void listing(void)
{
    const size_t bytes = KEPT_BYTES * (next() % (KEPT + 1));
    CALL(wv_archive_read(archive, bytes, listed, next() % 8 ? 4 * KEPT : 4, payload, sizeof payload, answer,
                         2));
}

/* How many bytes one call needs. */
static size_t needed(void (*call)(void))
{
    memset(stack, PATTERN, STACK);
    if (getcontext(&there) != 0)
        exit(2);
    there.uc_stack.ss_sp = stack;
    there.uc_stack.ss_size = STACK;
    there.uc_link = &here;
    makecontext(&there, call, 0);
    if (swapcontext(&here, &there) != 0)
        exit(2);
    size_t untouched = 0;
    while (untouched < STACK && stack[untouched] == PATTERN)
        untouched++;
    return (size_t)(above - (stack + untouched));
}

int main(void)
{
    static const struct { const char *name; void (*call)(void); } entries[17] = {
        {"wv_log_word", log_word}, {"wv_term_byte", term_byte}, {"wv_weight_byte", weight_byte},
        {"wv_entropy", medians}, {"wv_read", reading}, {"wv_word", word}, {"wv_pass", making},
        {"wv_decorrelate", decorrelation}, {"wv_analyse", analysis}, {"wv_pack", packing},
        {"wv_wave_export", exporting}, {"wv_wave_import", importing}, {"wv_morning_page", paging},
        {"wv_reassemble_int32", completing}, {"wv_deconstruct_int32", narrowing},
        {"wv_archive_write", keeping}, {"wv_archive_read", listing}};
    puts("| function | bytes of stack |\n|---|---:|");
    for (size_t i = 0; i < 17; i++) {
        size_t most = 0;
        for (int round = 0; round < ROUNDS; round++) {
            fill();
            fill_terms();
            fill_sounds();
            fill_blocks();
            fill_wide();
            fill_archive();
            size_t bytes = needed(entries[i].call);
            most = bytes > most ? bytes : most;
        }
        printf("| `%s` | %zu |\n", entries[i].name, most);
    }
    return 0;
}
