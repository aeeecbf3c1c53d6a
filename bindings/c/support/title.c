#include "title.h"

#include <string.h>

/* Bytes of a record. */
enum { HEADER = 0x40, POOL = 0x20, RESOURCE = 0x70, VOICE = 0x170, WAVE = 0x38, EFFECT = 0xc0, MIX = 0x930, SINK = 0x140 };
enum { SPLITTERS = 0x20, SPLITTER = 0x10, DESTINATION = 0x70, MIXES = 0x20 };

/* Where the parts of sample memory stand: the coefficients of all voices, their context, their samples. */
enum { COEFFICIENTS = 0, CONTEXT = 32, SAMPLES = 48 };

static const uint32_t NO_MIX = 0x7fffffff, NO_SPLITTER = 0xffffffff;

void put_u32(uint8_t *to, uint32_t value) {
    int k;
    for (k = 0; k < 4; k++) {
        to[k] = (uint8_t)(value >> 8 * k);
    }
}

void put_f32(uint8_t *to, float value) {
    uint32_t bits;
    memcpy(&bits, &value, sizeof bits);
    put_u32(to, bits);
}

void put_memory(uint64_t *seed, uint8_t *to) {
    static const int pairs[16] = {0, 0, 2048, 0, 0, 1024, 1024, 512, 3000, -1200, 1536, 256, 1024, -256, 512, 0};
    size_t k;
    put_random(seed, to, MEMORY);
    for (k = 0; k < 16; k++) {
        to[COEFFICIENTS + 2 * k] = (uint8_t)(pairs[k] & 0xff);
        to[COEFFICIENTS + 2 * k + 1] = (uint8_t)(pairs[k] >> 8 & 0xff);
    }
    /* Every fourth byte of the samples such that a float of them is below 1, and not too far below. */
    for (k = SAMPLES + 3; k < MEMORY; k += 4) {
        to[k] = (uint8_t)(0x3c + (to[k] & 0x82));
    }
}

/* A splitter has two destinations, if there are as many. */
static uint32_t listed(const Counts *c) {
    return c->destinations < 2 ? c->destinations : 2;
}

/* Splitters are read from revision 2 on. */
static int splits(const Counts *c) {
    return c->revision >= 2 && c->splitters > 0 && c->destinations > 0;
}

static size_t splitters_size(const Counts *c) {
    size_t size = SPLITTERS + c->splitters * (size_t)(SPLITTER + 4 * listed(c)) + c->destinations * (size_t)DESTINATION;
    return splits(c) ? (size + 15) / 16 * 16 : 0;
}

static size_t pools_size(const Counts *c) {
    return (c->effects + 4 * c->voices) * (size_t)POOL;
}

/* Mixes have a header from revision 7 on. */
static size_t mixes_header(const Counts *c) {
    return c->revision >= 7 ? MIXES : 0;
}

static size_t mixes_place(const Counts *c) {
    return HEADER + pools_size(c) + c->voices * (size_t)(RESOURCE + VOICE) + c->effects * (size_t)EFFECT + splitters_size(c);
}

size_t mix_place(const Counts *c, uint32_t m) {
    return mixes_place(c) + mixes_header(c) + m * (size_t)MIX;
}

size_t title_size(const Counts *c) {
    return mix_place(c, c->sub_mixes + 1) + c->sinks * (size_t)SINK;
}

void put_destination(uint8_t *title, const Counts *c, uint32_t mix, uint32_t destination) {
    put_u32(title + mix_place(c, mix) + 0x924, destination);
}

/* A gain in 0..1, one of eight 0. */
static float gain(uint64_t *seed) {
    return below(seed, 8) == 0 ? 0.0f : (float)below(seed, 1001) / 1000.0f;
}

static void put_gains(uint8_t *to, uint64_t *seed) {
    int k;
    for (k = 0; k < 24; k++) {
        put_f32(to + 4 * k, gain(seed));
    }
}

/* The end of a voice's loop, as a place in samples that lies in memory. */
static uint32_t loop_end(const Sound *s) {
    uint32_t bytes = MEMORY - SAMPLES;
    return s->format == 5 ? bytes / 4 : s->format == 6 ? bytes / 8 * 14 : bytes / 2;
}

static void put_voice(uint8_t *to, const Counts *c, const Sound *s, int fresh, uint32_t v) {
    uint8_t *wave = to + 0x60;
    int by_splitter = splits(c) && v % 4 == 3, k;
    put_u32(to, v);
    to[0x08] = (uint8_t)fresh;
    to[0x09] = 1;
    to[0x0b] = (uint8_t)s->format;
    put_u32(to + 0x0c, c->rate);
    put_u32(to + 0x18, 1);
    put_f32(to + 0x1c, s->pitch);
    put_f32(to + 0x20, s->volume);
    put_u32(to + 0x3c, 1);
    put_u32(to + 0x48, BASE + COEFFICIENTS);
    put_u32(to + 0x58, by_splitter ? NO_MIX : v % (c->sub_mixes + 1));
    put_u32(to + 0x5c, by_splitter ? v % c->splitters : NO_SPLITTER);
    put_u32(wave, BASE + SAMPLES);
    put_u32(wave + 0x08, MEMORY - SAMPLES);
    put_u32(wave + 0x10, v % 7);
    put_u32(wave + 0x14, loop_end(s));
    wave[0x18] = 1;
    wave[0x1a] = (uint8_t)!fresh;
    put_u32(wave + 0x1c, 0xffffffff);
    put_u32(wave + 0x20, BASE + CONTEXT);
    for (k = 1; k < 4; k++) {
        wave[k * WAVE + 0x1a] = 1;
    }
    for (k = 0; k < 6; k++) {
        put_u32(to + 0x140 + 4 * k, v);
    }
}

static void put_splitters(uint8_t *to, const Counts *c, uint64_t *seed) {
    uint32_t k, d;
    memcpy(to, "SNDH", 4);
    put_u32(to + 4, c->splitters);
    put_u32(to + 8, c->destinations);
    to += SPLITTERS;
    for (k = 0; k < c->splitters; k++) {
        memcpy(to, "SNDI", 4);
        put_u32(to + 4, k);
        put_u32(to + 0x0c, listed(c));
        for (d = 0; d < listed(c); d++) {
            put_u32(to + SPLITTER + 4 * d, (k + d) % c->destinations);
        }
        to += SPLITTER + 4 * listed(c);
    }
    for (d = 0; d < c->destinations; d++) {
        memcpy(to, "SNDD", 4);
        put_u32(to + 4, d);
        put_gains(to + 8, seed);
        put_u32(to + 0x68, d % (c->sub_mixes + 1));
        to[0x6c] = 1;
        to += DESTINATION;
    }
}

static void put_mix(uint8_t *to, const Counts *c, uint32_t m, uint64_t *seed) {
    uint32_t count = c->mix_buffers / (c->sub_mixes + 1), k;
    put_f32(to, m == 0 ? 1.0f : 0.9f);
    put_u32(to + 0x08, count > 24 ? 24 : count);
    to[0x0c] = 1;
    put_u32(to + 0x10, m);
    for (k = 0; k < 24 * 24; k++) {
        put_f32(to + 0x24 + 4 * k, k % 25 == 0 ? 1.0f : below(seed, 16) == 0 ? gain(seed) : 0.0f);
    }
    put_u32(to + 0x924, m == 0 ? NO_MIX : m / 2);
    put_u32(to + 0x928, NO_SPLITTER);
}

static void put_sink(uint8_t *to, uint32_t k) {
    uint8_t i;
    to[0] = 1;
    to[1] = k == 0;
    put_u32(to + 0x120, 6);
    for (i = 0; i < 6; i++) {
        to[0x124 + i] = (uint8_t)(i % 2);
    }
}

void put_title(uint8_t *to, const Counts *c, const Sound *s, int fresh, uint64_t *seed) {
    uint32_t k;
    memset(to, 0, title_size(c));
    put_u32(to + 0x08, (uint32_t)pools_size(c));
    put_u32(to + 0x0c, c->voices * VOICE);
    put_u32(to + 0x10, c->voices * RESOURCE);
    put_u32(to + 0x14, c->effects * EFFECT);
    put_u32(to + 0x18, (uint32_t)mixes_header(c) + (c->sub_mixes + 1) * MIX);
    put_u32(to + 0x1c, c->sinks * SINK);
    to += HEADER;
    for (k = 0; k < c->effects + 4 * c->voices; k++, to += POOL) {
        put_u32(to + 0x10, k % 2 == 0 ? 4 : 2);
    }
    for (k = 0; k < c->voices; k++, to += RESOURCE) {
        put_gains(to + 4, seed);
    }
    for (k = 0; k < c->voices; k++, to += VOICE) {
        put_voice(to, c, s, fresh, k);
    }
    for (k = 0; k < c->effects; k++, to += EFFECT) {
        to[2] = k % 2;
    }
    if (splits(c)) {
        put_splitters(to, c, seed);
        to += splitters_size(c);
    }
    if (mixes_header(c) > 0) {
        put_u32(to + 4, c->sub_mixes + 1);
        to += mixes_header(c);
    }
    for (k = 0; k <= c->sub_mixes; k++, to += MIX) {
        put_mix(to, c, k, seed);
    }
    for (k = 0; k < c->sinks; k++, to += SINK) {
        put_sink(to, k);
    }
}

size_t damage(uint8_t *title, size_t size, uint64_t *seed) {
    static const uint32_t extremes[] = {0, 1, 0x7f, 0x7fffffff, 0x80000000, 0xfffffffe, 0xffffffff, 0x930, 0x170};
    uint32_t k;
    switch (below(seed, 4)) {
    case 0:
        return below(seed, (uint32_t)size + 1);
    case 1:
        put_u32(title + 4 * below(seed, HEADER / 4), extremes[below(seed, sizeof extremes / sizeof *extremes)]);
        return size;
    case 2:
        for (k = 0; k < 32; k++) {
            title[below(seed, (uint32_t)size)] = (uint8_t)below(seed, 256);
        }
        return size;
    default:
        put_random(seed, title + HEADER, size - HEADER);
        return size;
    }
}
