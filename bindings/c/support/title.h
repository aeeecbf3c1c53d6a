/* A title as bytes: sample memory and the input of an update. */
#ifndef TITLE_H
#define TITLE_H

#include "desk.h"

/* MEMORY bytes: ADPCM coefficients, a context and samples for all formats, by the seed. */
void put_memory(uint64_t *seed, uint8_t *to);

/* How many bytes put_title writes for these counts. */
size_t title_size(const Counts *c);

/* A well-formed update for every count: each voice plays a loop (started and, if `fresh`, new) to a mix, every fourth by a splitter where
 * there are some; sub-mix m goes to mix m / 2, the final mix to the first sink. Gains are by the seed. */
void put_title(uint8_t *to, const Counts *c, const Sound *s, int fresh, uint64_t *seed);

/* The place of mix m's record in such an update, or of the mixes' end for m one past the last. */
size_t mix_place(const Counts *c, uint32_t m);

/* Sets a mix's destination in such an update. */
void put_destination(uint8_t *title, const Counts *c, uint32_t mix, uint32_t destination);

/* Damages a title: some bytes, or a size in its header. Gives how many of its bytes are left. */
size_t damage(uint8_t *title, size_t size, uint64_t *seed);

void put_u32(uint8_t *to, uint32_t value);
void put_f32(uint8_t *to, float value);

#endif
