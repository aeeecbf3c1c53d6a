/* DSP files as bytes. */
#ifndef DSP_H
#define DSP_H

#include "desk.h"

#define DSP_HEADER 96
#define DSP_MOST 200 /* bytes of the longest file that put_dsp makes */

/* A DSP file by the seed: most are accepted, some have a byte that question 11 doesn't allow, are too short for their samples or for a
 * header, or have bytes beyond. Gives its length. */
size_t put_dsp(uint64_t *seed, uint8_t to[DSP_MOST]);

/* Whether two answers are the same. */
int same_reads(const JeqllunaDspRead *a, const JeqllunaDspRead *b);

#endif
