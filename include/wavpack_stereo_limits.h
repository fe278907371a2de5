/* The limits, spans, sizes and numbers of slots of the functions of wavpack_stereo.h. */
#ifndef WAVPACK_STEREO_LIMITS_H
#define WAVPACK_STEREO_LIMITS_H

#include <stddef.h>

/* Limits: more is refused with WV_TOO_LARGE, and more passes with WV_TOO_MANY_PASSES. An element is a
 * sample or a residual; a frame has two of them, left and right. An archive with a longer payload is refused
 * with WV_BAD_BLOCK. */
#define WV_MAX_FRAMES 131072u
#define WV_MAX_ELEMENTS 262144u
#define WV_MAX_PAYLOAD_BYTES 4194304u
#define WV_MAX_WAVE_BYTES 524332u
#define WV_MAX_PASSES 16u

/* The spans of a log word, a residual to pack, the rate of a sound file, and the four fields of wide
 * samples. */
#define WV_MIN_LOG_WORD (-8191)
#define WV_MAX_LOG_WORD 8191
#define WV_MIN_RESIDUAL (-1879048192)
#define WV_MAX_RESIDUAL 1879048191
#define WV_MIN_RATE 1u
#define WV_MAX_RATE 192000u
#define WV_MAX_FIELD 31u

/* The entropy payload of a stereo block, and of a mono one. */
#define WV_ENTROPY_BYTES 12u
#define WV_MONO_ENTROPY_BYTES 6u

/* The storage that a caller lends for what is written. */
#define WV_BYTES_PER_FRAME 28u          /* wv_pack: for each frame */
#define WV_WAVE_HEADER_BYTES 44u        /* wv_wave_export: before the samples */
#define WV_WAVE_BYTES_PER_SAMPLE 2u     /* and for each of them */
#define WV_LITERAL_BYTES_PER_SAMPLE 4u  /* wv_deconstruct_int32: for each sample */
#define WV_LINE_BYTES 45u               /* wv_morning_page: for each line, which covers */
#define WV_LINE_FRAMES 1024u            /* so many frames, the last one those that are left: */
#define WV_PAGE_BYTES(frames) (((size_t)(frames) + WV_LINE_FRAMES - 1) / WV_LINE_FRAMES * WV_LINE_BYTES)
#define WV_ARCHIVE_BLOCK_BYTES 512u     /* wv_archive_write: for each block, which holds */
#define WV_ARCHIVE_DATA_BYTES 504u      /* so many bytes of a recording: */
#define WV_ARCHIVE_HEAD_BYTES 12u       /* these, and then its payload */
#define WV_ARCHIVE_BLOCKS(length) \
    (((size_t)(length) + WV_ARCHIVE_HEAD_BYTES + WV_ARCHIVE_DATA_BYTES - 1) / WV_ARCHIVE_DATA_BYTES)
#define WV_ARCHIVE_BYTES(length) (WV_ARCHIVE_BLOCKS(length) * WV_ARCHIVE_BLOCK_BYTES)
#define WV_ARCHIVE_NUMBERS_PER_RECORDING 4u  /* wv_archive_read: in list, for each recording */

/* Slots of the lists. */
#define WV_LOG_WORD_SLOTS 1u
#define WV_TERM_BYTE_SLOTS 2u
#define WV_WEIGHT_BYTE_SLOTS 1u
#define WV_ENTROPY_SLOTS 6u
#define WV_READ_SLOTS 10u
#define WV_WORD_STATE_SLOTS 15u
#define WV_WORD_SAMPLE_SLOTS 1u
#define WV_WORD_REPORT_SLOTS 2u
#define WV_PASS_SLOTS 20u
#define WV_PACK_SLOTS 7u
#define WV_WAVE_EXPORT_SLOTS 1u
#define WV_WAVE_IMPORT_SLOTS 2u
#define WV_MORNING_PAGE_SLOTS 1u
#define WV_REASSEMBLE_INT32_SLOTS 1u
#define WV_DECONSTRUCT_INT32_SLOTS 1u
#define WV_ARCHIVE_WRITE_SLOTS 1u
#define WV_ARCHIVE_READ_SLOTS 2u

#endif
