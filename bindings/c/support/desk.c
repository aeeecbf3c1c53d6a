#include "desk.h"

#include <stdarg.h>
#include <stdio.h>
#include <stdlib.h>
#include <string.h>

#include "title.h"

const Counts SMALL = {48000, 16, 2, 0, 1, 1, 0, 0, 0, 8};
const Counts MIDDLE = {48000, 256, 24, 5, 24, 1, 4, 4, 8, 8};
const Counts LARGEST = {48000, 256, 96, 31, 64, 8, 64, 32, 128, 8};

void fail(const char *format, ...) {
    va_list rest;
    va_start(rest, format);
    vfprintf(stderr, format, rest);
    va_end(rest);
    fprintf(stderr, "\n");
    exit(1);
}

void *room(size_t n) {
    void *p = n == 0 ? NULL : calloc(n, 1);
    if (n != 0 && p == NULL) {
        fail("no memory");
    }
    return p;
}

void put_parameters(uint8_t parameters[JEQLLUNA_PARAMETERS], const Counts *c) {
    memset(parameters, 0, JEQLLUNA_PARAMETERS);
    put_u32(parameters + 0x00, c->rate);
    put_u32(parameters + 0x04, c->samples);
    put_u32(parameters + 0x08, c->mix_buffers);
    put_u32(parameters + 0x0c, c->sub_mixes);
    put_u32(parameters + 0x10, c->voices);
    put_u32(parameters + 0x14, c->sinks);
    put_u32(parameters + 0x18, c->effects);
    put_u32(parameters + 0x24, c->splitters);
    put_u32(parameters + 0x28, c->destinations);
    memcpy(parameters + 0x30, "REV", 3);
    parameters[0x33] = (uint8_t)('0' + c->revision);
}

uint32_t desk_open(Desk *d, const uint8_t *parameters, size_t length) {
    return jeqlluna_open(
        parameters, length, d->words, d->n.words, d->longs, d->n.longs, d->floats, d->n.floats, d->contexts, d->n.contexts, d->history,
        d->n.history);
}

JeqllunaUpdate desk_update(Desk *d, uint32_t expected, const uint8_t *input, size_t length, uint8_t *reply, size_t reply_length) {
    return jeqlluna_update(
        d->words, d->n.words, d->longs, d->n.longs, d->floats, d->n.floats, d->contexts, d->n.contexts, d->history, d->n.history, expected,
        input, length, reply, reply_length);
}

JeqllunaRender desk_render(Desk *d, const uint8_t *memory, size_t length, float *frames, size_t count) {
    uint64_t range[3] = {BASE, 0, 0};
    range[2] = length;
    return desk_render_ranges(d, range, 3, memory, length, frames, count);
}

JeqllunaRender desk_render_ranges(
    Desk *d, const uint64_t *ranges, size_t numbers, const uint8_t *memory, size_t length, float *frames, size_t count) {
    return jeqlluna_render(
        d->words, d->n.words, d->longs, d->n.longs, d->floats, d->n.floats, d->contexts, d->n.contexts, d->history, d->n.history, ranges,
        numbers, memory, length, frames, count);
}

JeqllunaRender desk_section(
    Desk *d, uint32_t renders, const uint64_t *ranges, size_t numbers, const uint8_t *memory, size_t length, float *frames, size_t count) {
    return jeqlluna_render_section(
        d->words, d->n.words, d->longs, d->n.longs, d->floats, d->n.floats, d->contexts, d->n.contexts, d->history, d->n.history, renders,
        ranges, numbers, memory, length, frames, count);
}

Desk open_desk(const Counts *c) {
    uint8_t parameters[JEQLLUNA_PARAMETERS];
    Desk d;
    uint32_t number;
    put_parameters(parameters, c);
    d.n = jeqlluna_lengths(parameters, sizeof parameters);
    if (d.n.number != 0) {
        fail("lengths: %s", jeqlluna_refusal(d.n.number));
    }
    d.words = (uint32_t *)room(d.n.words * sizeof *d.words);
    d.longs = (uint64_t *)room(d.n.longs * sizeof *d.longs);
    d.floats = (float *)room(d.n.floats * sizeof *d.floats);
    d.contexts = (uint16_t *)room(d.n.contexts * sizeof *d.contexts);
    d.history = (float *)room(d.n.history * sizeof *d.history);
    number = desk_open(&d, parameters, sizeof parameters);
    if (number != 0) {
        fail("open: %s", jeqlluna_refusal(number));
    }
    return d;
}

void close_desk(Desk *d) {
    free(d->words), free(d->longs), free(d->floats), free(d->contexts), free(d->history);
}

static void *copy(const void *data, size_t bytes) {
    void *p = room(bytes);
    if (bytes != 0) {
        memcpy(p, data, bytes);
    }
    return p;
}

Desk copy_desk(const Desk *d) {
    Desk c = *d;
    c.words = (uint32_t *)copy(d->words, d->n.words * sizeof *d->words);
    c.longs = (uint64_t *)copy(d->longs, d->n.longs * sizeof *d->longs);
    c.floats = (float *)copy(d->floats, d->n.floats * sizeof *d->floats);
    c.contexts = (uint16_t *)copy(d->contexts, d->n.contexts * sizeof *d->contexts);
    c.history = (float *)copy(d->history, d->n.history * sizeof *d->history);
    return c;
}

uint64_t sum(uint64_t from, const void *data, size_t bytes) {
    const uint8_t *d = (const uint8_t *)data;
    size_t k;
    for (k = 0; k < bytes; k++) {
        from = (from ^ d[k]) * 0x100000001b3u;
    }
    return from;
}

uint64_t desk_sum(const Desk *d) {
    uint64_t s = sum(1, d->words, d->n.words * sizeof *d->words);
    s = sum(s, d->longs, d->n.longs * sizeof *d->longs);
    s = sum(s, d->floats, d->n.floats * sizeof *d->floats);
    s = sum(s, d->contexts, d->n.contexts * sizeof *d->contexts);
    return sum(s, d->history, d->n.history * sizeof *d->history);
}

/* memcmp that allows NULL for no bytes. */
static int same(const void *a, const void *b, size_t bytes) {
    return bytes == 0 || memcmp(a, b, bytes) == 0;
}

int same_desks(const Desk *a, const Desk *b) {
    return same(a->words, b->words, a->n.words * sizeof *a->words) && same(a->longs, b->longs, a->n.longs * sizeof *a->longs) &&
           same(a->floats, b->floats, a->n.floats * sizeof *a->floats) &&
           same(a->contexts, b->contexts, a->n.contexts * sizeof *a->contexts) &&
           same(a->history, b->history, a->n.history * sizeof *a->history);
}

uint32_t below(uint64_t *seed, uint32_t most) {
    uint64_t x = *seed += 0x9e3779b97f4a7c15u;
    x = (x ^ x >> 30) * 0xbf58476d1ce4e5b9u;
    x = (x ^ x >> 27) * 0x94d049bb133111ebu;
    return (uint32_t)((x >> 32) * most >> 32);
}

void put_random(uint64_t *seed, uint8_t *to, size_t bytes) {
    size_t k;
    for (k = 0; k < bytes; k++) {
        to[k] = (uint8_t)below(seed, 256);
    }
}
