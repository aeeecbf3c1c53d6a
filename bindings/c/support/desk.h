/* A renderer with its five slices, for the programs of bindings/c. */
#ifndef DESK_H
#define DESK_H

#include "jeqlluna.h"

#define BASE 0x10000 /* where sample memory stands */
#define MEMORY 4096  /* its bytes */

/* The counts that a renderer is opened with. */
typedef struct {
    uint32_t rate, samples, mix_buffers, sub_mixes, voices, sinks, effects, splitters, destinations;
    int revision; /* 0 to 9 */
} Counts;

/* What every voice of a title does: its format (2 PCM16, 5 float, 6 ADPCM, others silence), pitch and volume. */
typedef struct {
    int format;
    float pitch, volume;
} Sound;

/* The five slices, wherever they stand. */
typedef struct {
    uint32_t *words;
    uint64_t *longs;
    float *floats;
    uint16_t *contexts;
    float *history;
    JeqllunaLengths n;
} Desk;

/* One voice, everything of a title that plays many, and as much as is allowed. */
extern const Counts SMALL, MIDDLE, LARGEST;

/* Ends the program with a message, in the manner of printf. */
void fail(const char *format, ...);

/* Zeros for n bytes; NULL for none. */
void *room(size_t n);

void put_parameters(uint8_t parameters[JEQLLUNA_PARAMETERS], const Counts *c);

/* Five slices for these counts on the heap, opened, and their end. */
Desk open_desk(const Counts *c);
void close_desk(Desk *d);

/* The same five slices once more, on the heap. */
Desk copy_desk(const Desk *d);

uint32_t desk_open(Desk *d, const uint8_t *parameters, size_t length);
JeqllunaUpdate desk_update(Desk *d, uint32_t expected, const uint8_t *input, size_t length, uint8_t *reply, size_t reply_length);

/* A render with one range, all of memory from BASE on; and one with any ranges, by their numbers. */
JeqllunaRender desk_render(Desk *d, const uint8_t *memory, size_t length, float *frames, size_t count);
JeqllunaRender desk_render_ranges(
    Desk *d, const uint64_t *ranges, size_t numbers, const uint8_t *memory, size_t length, float *frames, size_t count);

/* A section of so many renders with any ranges, by their numbers. */
JeqllunaRender desk_section(
    Desk *d, uint32_t renders, const uint64_t *ranges, size_t numbers, const uint8_t *memory, size_t length, float *frames, size_t count);

/* Whether two renderers hold the same, bit for bit, and what one holds as a number to compare. */
int same_desks(const Desk *a, const Desk *b);
uint64_t desk_sum(const Desk *d);

/* Goes on from a sum over so many bytes. */
uint64_t sum(uint64_t from, const void *data, size_t bytes);

/* The next number, below `most`, of a sequence by a seed, which may be any. */
uint32_t below(uint64_t *seed, uint32_t most);
void put_random(uint64_t *seed, uint8_t *to, size_t bytes);

#endif
