/* What the files of this program share. */
#ifndef ANSWERS_H
#define ANSWERS_H

#include <stddef.h>
#include <stdint.h>
#include "wavpack_stereo.h"

/* Says so where a number is not the expected one. */
void expect(const char *what, long long got, long long wanted);
void expect_list(const char *what, const int32_t *got, const int32_t *wanted, size_t count);

/* wv_decorrelate or wv_analyse. */
typedef uint32_t pass_call(int32_t *passes, size_t passes_len, int32_t *buffer, size_t buffer_len);

/* Checks the totals of bits by stem. */
void bits_by_stem(void);

/* Checks log words past the format's reach. */
void log_words_out_of_reach(void);

/* Checks pass lists joined. */
void joined_lists(void);

/* Checks buffers cut on eights. */
void cuts(void);

/* Checks the two calls of sound files. */
void sound_files(void);

/* Checks the call of the morning page. */
void morning_pages(void);

/* Checks the two calls for recordings wider than the words. */
void wide_recordings(void);

/* Checks the two calls of archives. */
void archives(void);

#endif
