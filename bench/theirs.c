/* Whole decoding with libwavpack, from memory, straight into the samples of the file. */
#include <stdio.h>
#include <string.h>
#include <wavpack/wavpack.h>
#include "turns.h"

/* Frames that are asked for at once; from 256 up to the whole file the times are within 2 % of each other. */
enum { CHUNK = 4096 };

/* A file in memory, as libwavpack reads one. */
struct stream { const struct recording *recording; int64_t at; };

static int32_t read_bytes(void *id, void *data, int32_t count)
{
    struct stream *stream = id;
    int64_t left = (int64_t)stream->recording->size - stream->at;
    int32_t given = count < left ? count : (int32_t)left;
    memcpy(data, stream->recording->file + stream->at, (size_t)given);
    stream->at += given;
    return given;
}

static int64_t get_pos(void *id)
{
    return ((struct stream *)id)->at;
}

static int64_t get_length(void *id)
{
    return (int64_t)((struct stream *)id)->recording->size;
}

static int set_pos_abs(void *id, int64_t at)
{
    if (at < 0 || at > get_length(id))
        return -1;
    ((struct stream *)id)->at = at;
    return 0;
}

static int set_pos_rel(void *id, int64_t delta, int mode)
{
    return set_pos_abs(id, delta + (mode == SEEK_SET ? 0 : mode == SEEK_CUR ? get_pos(id) : get_length(id)));
}

static int push_back_byte(void *id, int byte)
{
    return set_pos_rel(id, -1, SEEK_CUR) == 0 ? byte : EOF;
}

static int can_seek(void *id)
{
    return id != NULL;
}

static WavpackStreamReader64 reader = {
    .read_bytes = read_bytes, .get_pos = get_pos, .get_length = get_length, .set_pos_abs = set_pos_abs,
    .set_pos_rel = set_pos_rel, .push_back_byte = push_back_byte, .can_seek = can_seek};

void decode(struct recording *recording)
{
    struct stream stream = {recording, 0};
    char why[80] = "";
    size_t done = 0;
    uint32_t got;
    WavpackContext *context = WavpackOpenFileInputEx64(&reader, &stream, NULL, why, 0, 0);
    if (!context)
        stop(recording->name, why);
    if (WavpackGetNumChannels(context) != 2 || WavpackGetNumSamples64(context) != (int64_t)recording->frames)
        stop(recording->name, "another number of channels or frames");
    do {
        size_t left = recording->frames - done;
        uint32_t asked = left < CHUNK ? (uint32_t)left : CHUNK;
        got = WavpackUnpackSamples(context, recording->samples + 2 * done, asked);
        done += got;
    } while (got > 0);
    if (done < recording->frames || WavpackGetNumErrors(context) != 0)
        stop(recording->name, "not all frames are decoded");
    WavpackCloseFile(context);
}
