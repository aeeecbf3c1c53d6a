/* Guard pages around every slice: guard [SESSIONS [MXCSR]]. Each slice of each call stands between two pages that can't be touched, at the
 * beginning of what lies between or at its end, exactly as long as it must be; slices that are only read can't be written meanwhile.
 * Every answer, reply, frame and state is that of the same calls on plain memory. MXCSR, in hexadecimal, is another floating-point mode
 * for all of it. */
#include <stdio.h>
#include <stdlib.h>
#include <string.h>
#include <xmmintrin.h>

#include "dsp.h"
#include "jeqlluna_title.h"
#include "ranges.h"
#include "region.h"
#include "title.h"

#define REPLY 20000 /* the longest reply for which there is room */
#define RENDERS 4   /* the longest section for which there is room */
#define EACH (JEQLLUNA_CHANNEL_RESOURCE_SIZE + JEQLLUNA_VOICE_SIZE)

static long calls = 0;
static long answers[JEQLLUNA_COUNT + 1]; /* of renders and sections in any ranges, by number */
static long merges[JEQLLUNA_BLOCK + 1];  /* by number */

static void hold(const char *what, int same) {
    calls++;
    if (!same) {
        fail("%s differs between guard pages", what);
    }
}

static void order(const Desk *g, const Desk *plain, const Region held[5]) {
    JeqllunaOrder a, b;
    int k;
    for (k = 0; k < 5; k++) {
        allow(held[k], 0);
    }
    a = jeqlluna_mix_order(
        g->words, g->n.words, g->longs, g->n.longs, g->floats, g->n.floats, g->contexts, g->n.contexts, g->history, g->n.history);
    b = jeqlluna_mix_order(
        plain->words, plain->n.words, plain->longs, plain->n.longs, plain->floats, plain->n.floats, plain->contexts, plain->n.contexts,
        plain->history, plain->n.history);
    for (k = 0; k < 5; k++) {
        allow(held[k], 1);
    }
    hold("mix order", memcmp(&a, &b, sizeof a) == 0);
}

static void update(Desk *g, Desk *plain, const Counts *c, const uint8_t *title, size_t size, int at_end, uint64_t *seed) {
    static uint8_t expected_reply[REPLY];
    static const uint32_t sizes[] = {0, 1, 6672, 9000, 15000, 0x7fffffff, 0xffffffff};
    uint8_t p[JEQLLUNA_PARAMETERS], *reply;
    Region in = region(size), out = region(REPLY);
    uint32_t expected = sizes[below(seed, sizeof sizes / sizeof *sizes)];
    JeqllunaLength l;
    JeqllunaUpdate a, b;
    size_t n;
    put_parameters(p, c);
    l = jeqlluna_reply_length(p, sizeof p, expected);
    n = l.size > REPLY ? below(seed, 100) : below(seed, 16) == 0 ? l.size - 1 : l.size;
    reply = place(out, n, at_end);
    memset(reply, 0x5a, n);
    memset(expected_reply, 0x5a, sizeof expected_reply);
    a = desk_update(g, expected, lend(in, title, size, at_end), size, reply, n);
    b = desk_update(plain, expected, title, size, expected_reply, n);
    hold("update", a.number == b.number && a.size == b.size && a.number == (n < l.size ? (uint32_t)JEQLLUNA_REPLY : 0u));
    hold("reply", memcmp(reply, expected_reply, n) == 0 && same_desks(g, plain));
    release(in);
    release(out);
}

/* A render, or a section of up to RENDERS or of too many; memory at once, cut into ranges that touch, or in any ranges, of which some are
 * refused. */
static void render(Desk *g, Desk *plain, const Counts *c, Region memory, const uint8_t *bytes, int section, int at_end, uint64_t *seed) {
    static float expected[RENDERS * 512];
    float *frames;
    uint64_t numbers[NUMBERS_MOST];
    uint8_t slice[MEMORY];
    uint32_t kind = below(seed, 3), renders = !section ? 1 : below(seed, 16) == 0 ? 1025 : below(seed, RENDERS + 1), due = JEQLLUNA_OK;
    size_t n = 2 * c->samples * (size_t)(renders > RENDERS ? RENDERS : renders), count = RANGE;
    size_t size = below(seed, 8) == 0 ? below(seed, MEMORY + 1) : MEMORY;
    Region out = region(sizeof expected), by = region(sizeof numbers);
    const uint64_t *ranges;
    JeqllunaRender a, b;
    if (renders > 1024) {
        due = JEQLLUNA_COUNT;
    } else if (n > 0 && below(seed, 16) == 0) {
        n--;
        due = JEQLLUNA_FRAMES;
    }
    memcpy(slice, bytes, MEMORY);
    put_range(numbers, BASE, 0, size);
    if (kind == 1) {
        size = MEMORY;
        count = cut_memory(seed, bytes, slice, numbers);
    } else if (kind == 2) {
        count = put_ranges(seed, size, numbers);
    }
    ranges = (const uint64_t *)(const void *)lend(by, (const uint8_t *)numbers, count * sizeof *numbers, at_end);
    frames = (float *)(void *)place(out, n * sizeof *frames, at_end);
    memset(frames, 0x5a, n * sizeof *frames);
    memset(expected, 0x5a, sizeof expected);
    if (section) {
        a = desk_section(g, renders, ranges, count, lend(memory, slice, size, at_end), size, frames, n);
        b = desk_section(plain, renders, numbers, count, slice, size, expected, n);
    } else {
        a = desk_render_ranges(g, ranges, count, lend(memory, slice, size, at_end), size, frames, n);
        b = desk_render_ranges(plain, numbers, count, slice, size, expected, n);
    }
    hold("render", a.number == b.number && a.rounds == b.rounds);
    answers[kind == 2 ? a.number : 0]++;
    hold("render", kind == 2 || a.number == due);
    hold("frames", memcmp(frames, expected, n * sizeof *frames) == 0 && same_desks(g, plain));
    release(out);
    release(by);
}

static void decode(int at_end, uint64_t *seed) {
    uint8_t data[40];
    int16_t pairs[20];
    float expected[40], *output;
    size_t n = below(seed, 41), m = below(seed, 21), count = below(seed, 41), start = below(seed, 60);
    JeqllunaContext context;
    JeqllunaDecoded a, b;
    Region in = region(sizeof data), with = region(sizeof pairs), out = region(sizeof expected);
    put_random(seed, data, sizeof data);
    put_random(seed, (uint8_t *)pairs, sizeof pairs);
    put_random(seed, (uint8_t *)&context, sizeof context);
    output = (float *)(void *)place(out, count * sizeof *output, at_end);
    memset(output, 0x5a, count * sizeof *output);
    memset(expected, 0x5a, sizeof expected);
    a = jeqlluna_decode_adpcm(
        lend(in, data, n, at_end), n, start, count,
        (const int16_t *)(const void *)lend(with, (const uint8_t *)pairs, m * sizeof *pairs, at_end), m, context, output, count);
    b = jeqlluna_decode_adpcm(data, n, start, count, pairs, m, context, expected, count);
    hold("decode", a.number == 0 && b.number == 0 && a.done == b.done && memcmp(&a.context, &b.context, sizeof context) == 0);
    hold("samples", memcmp(output, expected, count * sizeof *output) == 0);
    release(in);
    release(with);
    release(out);
}

/* Samples are encoded to an output of just the bytes that they take, or of one byte less. */
static void encode(int at_end, uint64_t *seed) {
    int16_t samples[40], pairs[20];
    uint8_t expected[24], *output;
    size_t n = below(seed, 41), m = below(seed, 21), size = n / 14 * 8 + (n % 14 > 0 ? 1 + (n % 14 + 1) / 2 : 0);
    size_t room = size > 0 && below(seed, 4) == 0 ? size - 1 : size;
    JeqllunaContext context;
    JeqllunaEncoded a, b;
    Region in = region(sizeof samples), with = region(sizeof pairs), out = region(sizeof expected);
    put_random(seed, (uint8_t *)samples, sizeof samples);
    put_random(seed, (uint8_t *)pairs, sizeof pairs);
    put_random(seed, (uint8_t *)&context, sizeof context);
    output = place(out, room, at_end);
    memset(output, 0x5a, room);
    memset(expected, 0x5a, sizeof expected);
    a = jeqlluna_encode_adpcm(
        (const int16_t *)(const void *)lend(in, (const uint8_t *)samples, n * sizeof *samples, at_end), n,
        (const int16_t *)(const void *)lend(with, (const uint8_t *)pairs, m * sizeof *pairs, at_end), m, context, output, room);
    b = jeqlluna_encode_adpcm(samples, n, pairs, m, context, expected, room);
    hold("encode", a.number == (room < size ? (uint32_t)JEQLLUNA_ENCODED : 0u) && a.number == b.number && a.size == b.size);
    hold("encode", a.error == b.error && memcmp(&a.context, &b.context, sizeof context) == 0);
    hold("bytes", memcmp(output, expected, room) == 0);
    release(in);
    release(with);
    release(out);
}

/* A DSP file is read, and its header and data are written to an output of its length, or of a byte less or more. */
static void dsp(int at_end, uint64_t *seed) {
    uint8_t file[DSP_MOST], expected[DSP_MOST + 1], *output;
    size_t n = put_dsp(seed, file), room = n + 1 - below(seed, 3), data = n < DSP_HEADER ? n : DSP_HEADER;
    Region in = region(sizeof file), out = region(sizeof expected);
    JeqllunaDspRead a, b;
    JeqllunaDspWritten x, y;
    a = jeqlluna_read_dsp(lend(in, file, n, at_end), n);
    b = jeqlluna_read_dsp(file, n);
    hold("DSP file read", same_reads(&a, &b));
    if (room > sizeof expected) {
        room = 0;
    }
    output = place(out, room, at_end);
    memset(output, 0x5a, room);
    memset(expected, 0x5a, sizeof expected);
    x = jeqlluna_write_dsp(a.header, lend(in, file + data, n - data, at_end), n - data, output, room);
    y = jeqlluna_write_dsp(b.header, file + data, n - data, expected, room);
    hold("DSP file written", x.number == y.number && x.size == y.size && memcmp(output, expected, room) == 0);
    hold("DSP file again", a.number != 0 || x.number == (room < n ? (uint32_t)JEQLLUNA_DSP_LENGTH : 0u));
    hold("DSP file again", a.number != 0 || x.number != 0 || memcmp(output, file, n) == 0);
    release(in);
    release(out);
}

/* A title's block, and a click's, of which either may be damaged: every second voice is the click's, one in six times the first too, or the
 * click names all channels by one number. They are merged to an output that is just long enough, a byte too short, or longer. */
static void merge(const Counts *c, const Sound *s, int at_end, uint64_t *seed) {
    size_t most = title_size(c), enough = most + c->voices * (size_t)EACH, sizes[2], n, k, kind = below(seed, 6);
    size_t voices = JEQLLUNA_UPDATE_HEADER_SIZE + (4 * c->voices + c->effects) * (size_t)JEQLLUNA_POOL_SIZE;
    uint8_t p[JEQLLUNA_PARAMETERS], *blocks[2], *expected = (uint8_t *)room(enough), *output;
    Region by = region(sizeof p), title = region(most), click = region(most), out = region(enough);
    JeqllunaMerged a, b;
    uint32_t v;
    put_parameters(p, c);
    voices += c->voices * (size_t)JEQLLUNA_CHANNEL_RESOURCE_SIZE;
    for (k = 0; k < 2; k++) {
        blocks[k] = (uint8_t *)room(most);
        put_title(blocks[k], c, s, 1, seed);
        for (v = 0; v < c->voices; v++) {
            uint8_t *record = blocks[k] + voices + v * (size_t)JEQLLUNA_VOICE_SIZE;
            record[JEQLLUNA_VOICE_IN_USE] = v % 2 == k || (kind == 0 && v == 0);
            put_u32(record + JEQLLUNA_VOICE_CHANNEL_RESOURCES, kind == 1 && k == 1 ? 0xffffffff : v);
        }
        sizes[k] = below(seed, 2) == 0 ? most : damage(blocks[k], most, seed);
    }
    b = jeqlluna_merge(p, sizeof p, blocks[0], sizes[0], blocks[1], sizes[1], expected, enough);
    n = b.number != 0 ? enough : below(seed, 4) == 0 ? b.size - 1 : below(seed, 2) == 0 ? enough : b.size;
    output = place(out, n, at_end);
    memset(output, 0x5a, n);
    memset(expected, 0x5a, enough);
    a = jeqlluna_merge(
        lend(by, p, sizeof p, at_end), sizeof p, lend(title, blocks[0], sizes[0], at_end), sizes[0],
        lend(click, blocks[1], sizes[1], at_end), sizes[1], output, n);
    hold("merge", b.number != 0 || a.number == (n < b.size ? (uint32_t)JEQLLUNA_BLOCK : 0u));
    b = jeqlluna_merge(p, sizeof p, blocks[0], sizes[0], blocks[1], sizes[1], expected, n);
    hold("merge", a.number == b.number && a.size == b.size && memcmp(output, expected, n) == 0);
    merges[a.number]++;
    release(by), release(title), release(click), release(out);
    free(blocks[0]), free(blocks[1]), free(expected);
}

static void session(const Counts *c, int at_end, uint64_t seed) {
    static const int formats[] = {2, 5, 6, 3};
    uint8_t p[JEQLLUNA_PARAMETERS], bytes[MEMORY], *title = (uint8_t *)room(title_size(c));
    Region parameters = region(sizeof p), memory = region(MEMORY), held[5];
    Desk plain = open_desk(c), g = plain;
    Sound sound;
    uint64_t recordings = seed, blocks = seed;
    int k;
    sound.format = formats[below(&seed, 4)];
    sound.pitch = (float)below(&seed, 1700) / 100.0f;
    sound.volume = (float)below(&seed, 200) / 100.0f;
    put_parameters(p, c);
    put_memory(&seed, bytes);
    held[0] = region(g.n.words * sizeof *g.words);
    held[1] = region(g.n.longs * sizeof *g.longs);
    held[2] = region(g.n.floats * sizeof *g.floats);
    held[3] = region(g.n.contexts * sizeof *g.contexts);
    held[4] = region(g.n.history * sizeof *g.history);
    g.words = (uint32_t *)(void *)place(held[0], g.n.words * sizeof *g.words, at_end);
    g.longs = (uint64_t *)(void *)place(held[1], g.n.longs * sizeof *g.longs, at_end);
    g.floats = (float *)(void *)place(held[2], g.n.floats * sizeof *g.floats, at_end);
    g.contexts = (uint16_t *)(void *)place(held[3], g.n.contexts * sizeof *g.contexts, at_end);
    g.history = (float *)(void *)place(held[4], g.n.history * sizeof *g.history, at_end);
    hold("lengths", jeqlluna_lengths(lend(parameters, p, sizeof p, at_end), sizeof p).words == plain.n.words);
    hold("reply length", jeqlluna_reply_length(place(parameters, sizeof p, at_end), sizeof p, 9000).number == 0);
    hold("open", desk_open(&g, place(parameters, sizeof p, at_end), sizeof p) == 0 && same_desks(&g, &plain));
    for (k = 0; k < 12; k++) {
        size_t size = title_size(c);
        if (k % 4 == 0) {
            put_title(title, c, &sound, k == 0 || below(&seed, 4) == 0, &seed);
            if (k > 0 && below(&seed, 2) == 0) {
                size = damage(title, size, &seed);
            }
            update(&g, &plain, c, title, size, at_end, &seed);
            order(&g, &plain, held);
        }
        if (k % 4 == 2) {
            update(&g, &plain, c, title, 0, at_end, &seed); /* no input */
        }
        render(&g, &plain, c, memory, bytes, 0, at_end, &seed);
        if (k % 4 == 3) {
            render(&g, &plain, c, memory, bytes, 1, at_end, &seed);
            merge(c, &sound, at_end, &blocks);
        }
        decode(at_end, &seed);
        encode(at_end, &recordings);
        dsp(at_end, &seed);
    }
    for (k = 0; k < 5; k++) {
        release(held[k]);
    }
    release(parameters);
    release(memory);
    close_desk(&plain);
    free(title);
}

int main(int argc, char **argv) {
    long sessions = argc > 1 ? atol(argv[1]) : 400, k;
    uint64_t seed = 11;
    if (argc > 2) {
        _mm_setcsr((unsigned)strtoul(argv[2], NULL, 16));
    }
    for (k = 0; k < sessions; k++) {
        Counts c;
        c.rate = below(&seed, 3) == 0 ? below(&seed, 200000) : 48000;
        c.samples = 1 + below(&seed, 256);
        c.mix_buffers = below(&seed, 97);
        c.sub_mixes = below(&seed, 2) == 0 ? 0 : below(&seed, 32);
        c.voices = below(&seed, below(&seed, 2) == 0 ? 5 : 65);
        c.sinks = below(&seed, 9);
        c.effects = below(&seed, 65);
        c.splitters = below(&seed, 33);
        c.destinations = below(&seed, 129);
        c.revision = (int)below(&seed, 10);
        session(k == 0 ? &SMALL : k == 1 ? &MIDDLE : k == 2 ? &LARGEST : &c, 0, seed);
        session(k == 0 ? &SMALL : k == 1 ? &MIDDLE : k == 2 ? &LARGEST : &c, 1, seed);
    }
    if (sessions >= 40 && (answers[JEQLLUNA_MEMORY] == 0 || answers[JEQLLUNA_FRAMES] == 0 || answers[JEQLLUNA_RANGES] == 0)) {
        fail("no render in ranges is refused by 5, by 7 or by 13");
    }
    if (sessions >= 40 && answers[JEQLLUNA_COUNT] == 0) {
        fail("no section in ranges is refused by 14");
    }
    if (sessions >= 40 && !(merges[0] > 0 && merges[JEQLLUNA_VOICES] > 0 && merges[JEQLLUNA_CHANNELS] > 0 && merges[JEQLLUNA_BLOCK] > 0)) {
        fail("no merge succeeds, or is refused by 16, by 17 or by 18");
    }
    printf("%ld comparisons between guard pages; renders in ranges refused by 5, 7, 13, 14: %ld, %ld, %ld, %ld;", calls,
           answers[JEQLLUNA_MEMORY], answers[JEQLLUNA_FRAMES], answers[JEQLLUNA_RANGES], answers[JEQLLUNA_COUNT]);
    printf(" merges answered 0, 16, 17, 18: %ld, %ld, %ld, %ld\n", merges[0], merges[JEQLLUNA_VOICES], merges[JEQLLUNA_CHANNELS],
           merges[JEQLLUNA_BLOCK]);
    return 0;
}
