/* Ranges of sample memory as numbers: base, start and length of each. */
#ifndef RANGES_H
#define RANGES_H

#include "desk.h"

#define RANGE 3         /* numbers of a range */
#define NUMBERS_MOST 60 /* numbers that put_ranges gives at most */

/* The three numbers of a range. */
void put_range(uint64_t *to, uint64_t base, uint64_t start, uint64_t length);

/* MEMORY bytes that stand at BASE, cut into 1 to 16 ranges that touch, some of them empty: puts their parts into a slice of as many bytes,
 * in any sequence, and gives how many numbers there are. */
size_t cut_memory(uint64_t *seed, const uint8_t *memory, uint8_t *slice, uint64_t numbers[NUMBERS_MOST]);

/* Ranges of a slice of so many bytes, from about BASE on: touching or with gaps, empty, with parts anywhere in the slice, up to its end;
 * some that are refused by 13 or 5. One or two numbers may be left over. Gives how many numbers there are. */
size_t put_ranges(uint64_t *seed, size_t bytes, uint64_t numbers[NUMBERS_MOST]);

#endif
