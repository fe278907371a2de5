/* The calls of sound files: accepted, and with each refusal in its order. */
#include <string.h>
#include "answers.h"

/* A sound file of one frame, 3 and -1, at 44,100 frames a second. */
static const uint8_t sound[48] = {
    'R', 'I', 'F', 'F', 40, 0, 0, 0, 'W', 'A', 'V', 'E', 'f', 'm', 't', ' ', 16, 0, 0, 0, 1, 0, 2, 0,
    0x44, 0xac, 0, 0, 0x10, 0xb1, 2, 0, 4, 0, 16, 0, 'd', 'a', 't', 'a', 4, 0, 0, 0, 3, 0, 0xff, 0xff};

/* The largest sound file and its samples, and one more of each. */
enum { MOST_SAMPLES = 262144, MOST_BYTES = 524332 };
static int32_t many[MOST_SAMPLES + 1];
static uint8_t file[MOST_BYTES + 1];

static void exporting(void)
{
    uint32_t answer[2] = {77, 77};
    file[48] = 77;
    expect("wv_wave_export", wv_wave_export(44100, (const int32_t[]){3, -1}, 2, file, 49, answer, 1), 0);
    for (size_t i = 0; i < 48; i++)
        expect("a byte of a sound file", file[i], sound[i]);
    expect("the byte after a sound file", file[48], 77);
    expect("the bytes of a sound file", answer[0], 48);
    expect("the number after them", answer[1], 77);
    expect("wv_wave_export of no frames", wv_wave_export(1, many, 0, file, 44, answer, 1), 0);
    expect("the bytes of no frames", answer[0], 44);
    many[0] = 32767;
    many[1] = -32768;
    expect("wv_wave_export of all frames",
           wv_wave_export(192000, many, MOST_SAMPLES, file, MOST_BYTES, answer, 1), 0);
    expect("the bytes of all frames", answer[0], MOST_BYTES);
    many[0] = many[1] = 0;
    expect("wv_wave_import of all frames", wv_wave_import(file, MOST_BYTES, many, MOST_SAMPLES, answer, 2),
           0);
    expect("the rate of all frames", answer[0], 192000);
    expect("the samples of all frames", answer[1], MOST_SAMPLES);
    expect_list("the first frame", many, (const int32_t[]){32767, -32768}, 2);
}

/* A row has the faults of the rows below it too, so that the order of the tests shows. */
static void refused_exports(void)
{
    static const struct { size_t slots, samples, bytes; uint32_t rate, refusal; } rows[8] = {
        {0, MOST_SAMPLES + 1, 47, 0, 6}, {1, MOST_SAMPLES + 1, 47, 0, 5}, {1, MOST_SAMPLES - 1, 47, 0, 6},
        {1, 3, 47, 0, 6}, {1, 2, 47, 0, 11}, {1, 2, 48, 0, 14}, {1, 2, 48, 192001, 14},
        {1, 2, 48, 192000, 13}};
    static const int32_t outside[2] = {32768, -32769};
    uint32_t answer[1] = {77};
    memset(file, 77, 48);
    for (size_t i = 0; i < 16; i++) {
        many[1] = outside[i % 2];
        uint32_t refusal = wv_wave_export(rows[i / 2].rate, many, rows[i / 2].samples, file,
                                          rows[i / 2].bytes, answer, rows[i / 2].slots);
        expect("wv_wave_export of a row", refusal, rows[i / 2].refusal);
    }
    for (size_t i = 0; i < 48; i++)
        expect("a byte after a refusal", file[i], 77);
    expect("the answer after a refusal", answer[0], 77);
}

static void importing(void)
{
    int32_t samples[3] = {77, 77, 77};
    uint32_t answer[3] = {77, 77, 77};
    expect("wv_wave_import", wv_wave_import(sound, 48, samples, 3, answer, 2), 0);
    expect_list("samples of a sound file", samples, (const int32_t[]){3, -1, 77}, 3);
    expect("the rate of a sound file", answer[0], 44100);
    expect("the samples of a sound file", answer[1], 2);
    expect("the number after them", answer[2], 77);
}

static void refused_imports(void)
{
    int32_t samples[2] = {77, 77};
    uint32_t answer[2] = {77, 77};
    memcpy(file, sound, 48);
    expect("wv_wave_import into one slot", wv_wave_import(file, MOST_BYTES + 1, samples, 1, answer, 1), 6);
    expect("wv_wave_import of a long file", wv_wave_import(file, MOST_BYTES + 1, samples, 1, answer, 2), 5);
    expect("wv_wave_import of other lengths", wv_wave_import(file, MOST_BYTES, samples, 1, answer, 2), 14);
    for (size_t length = 0; length < 53; length++)
        expect("wv_wave_import of another length", wv_wave_import(file, length, samples, 1, answer, 2),
               length == 48 ? 11 : 14);
    for (size_t i = 0; i < 44; i++) {
        file[i] ^= 1;
        expect("wv_wave_import of another header", wv_wave_import(file, 48, samples, 1, answer, 2), 14);
        file[i] ^= 1;
    }
    memcpy(file + 24, (const uint8_t[]){0x01, 0xee, 2, 0, 0x04, 0xb8, 0x0b, 0}, 8);
    expect("wv_wave_import at 192,001", wv_wave_import(file, 48, samples, 1, answer, 2), 14);
    memset(file + 24, 0, 8);
    expect("wv_wave_import at 0", wv_wave_import(file, 48, samples, 1, answer, 2), 14);
    memcpy(file, sound, 48);
    file[4] = 38;
    file[40] = 2;
    expect("wv_wave_import of half a frame", wv_wave_import(file, 46, samples, 1, answer, 2), 14);
    expect_list("samples after a refusal", samples, (const int32_t[]){77, 77}, 2);
    expect("the rate after a refusal", answer[0], 77);
    expect("the samples after a refusal", answer[1], 77);
}

void sound_files(void)
{
    exporting();
    refused_exports();
    importing();
    refused_imports();
}
