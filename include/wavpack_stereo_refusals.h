/* Why a function of wavpack_stereo.h refuses: the numbers and their wording, which is that of
 * include/refusals.txt. */
#ifndef WAVPACK_STEREO_REFUSALS_H
#define WAVPACK_STEREO_REFUSALS_H

#include <stdint.h>

#define WV_ACCEPTED 0u
#define WV_ENTROPY_LENGTH 1u
#define WV_NOT_STEREO 2u
#define WV_TRUNCATED 3u
#define WV_END_OF_STREAM 4u
#define WV_TOO_LARGE 5u
#define WV_LIST_LENGTH 6u
#define WV_INVALID_TERM 7u
#define WV_SEED_TOO_SHORT 8u
#define WV_TOO_MANY_PASSES 9u
#define WV_RESIDUAL_OUT_OF_SPAN 10u
#define WV_OUTPUT_TOO_SHORT 11u
#define WV_INVALID_CHANNEL 12u
#define WV_SAMPLE_OUT_OF_SPAN 13u
#define WV_NOT_WAVE 14u
#define WV_FIELD_ABOVE_31 15u
#define WV_NOT_REINSERTABLE 16u
#define WV_LOG_WORD_OUT_OF_REACH 17u
#define WV_BAD_BLOCK 18u
#define WV_RECORDING_TWICE 19u

/* Why a call was refused, as a text that lasts as long as the program: "accepted" for WV_ACCEPTED, and
 * "unknown refusal" for a number that is not above, which only a newer library answers. */
static inline const char *wv_refusal_text(uint32_t refusal)
{
    switch (refusal) {
    case WV_ACCEPTED:
        return "accepted";
    case WV_ENTROPY_LENGTH:
        return "the entropy payload is neither 6 nor 12 bytes long";
    case WV_NOT_STEREO:
        return "the entropy payload is mono (6 bytes) or holds a negative median";
    case WV_TRUNCATED:
        return "a bit past the end is needed, or a count or a prefix value is over its cap";
    case WV_END_OF_STREAM:
        return "end of stream: the second count of a prefix is 33";
    case WV_TOO_LARGE:
        return "over 131,072 frames, 262,144 elements, 4,194,304 payload bytes or 524,332 bytes of a sound "
               "file";
    case WV_LIST_LENGTH:
        return "a list does not have the length that the function asks for";
    case WV_INVALID_TERM:
        return "a term that is none of 1 to 8, 17, 18, -1, -2, -3";
    case WV_SEED_TOO_SHORT:
        return "a seed with too few samples for its term";
    case WV_TOO_MANY_PASSES:
        return "over 16 passes";
    case WV_RESIDUAL_OUT_OF_SPAN:
        return "a residual outside -1,879,048,192 to 1,879,048,191";
    case WV_OUTPUT_TOO_SHORT:
        return "too little storage for the bytes or samples that are to be written";
    case WV_INVALID_CHANNEL:
        return "a word state whose next channel is neither 0 nor 1, or whose totals exceed its place";
    case WV_SAMPLE_OUT_OF_SPAN:
        return "a sample outside -32,768 to 32,767";
    case WV_NOT_WAVE:
        return "not a sound file of the one form that is accepted, or a rate outside 1 to 192,000";
    case WV_FIELD_ABOVE_31:
        return "sent_bits, zeros, ones or dups is above 31";
    case WV_NOT_REINSERTABLE:
        return "a sample whose low bits are not those that zeros, ones or dups put in";
    case WV_LOG_WORD_OUT_OF_REACH:
        return "a log word outside -8,191 to 8,191";
    case WV_BAD_BLOCK:
        return "a block of an archive is damaged, cut short, or not the one that has to follow";
    case WV_RECORDING_TWICE:
        return "an archive has the same house, start second and issue twice";
    default:
        return "unknown refusal";
    }
}

#endif
