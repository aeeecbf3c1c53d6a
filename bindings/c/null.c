/* NULL for each slice of each call where its count is 0, by itself and with all others: the answer and what is left are those of a
 * pointer to something. Slices of a renderer may be empty too (no voice: no contexts, no history); where one must not be, NULL is refused
 * like any other. */
#include <stdio.h>
#include <stdlib.h>
#include <string.h>

#include "title.h"

static int calls = 0;

/* Two numbers that must be the same, one from a call with NULL. */
static void hold(const char *what, unsigned long with, unsigned long without) {
    calls++;
    if (with != without) {
        fail("%s: %lu with NULL, %lu without", what, with, without);
    }
}

/* Parameters. */
static void parameters(void) {
    const uint8_t some[1] = {0};
    JeqllunaLengths a = jeqlluna_lengths(NULL, 0), b = jeqlluna_lengths(some, 0);
    JeqllunaLength c = jeqlluna_reply_length(NULL, 0, 1), d = jeqlluna_reply_length(some, 0, 1);
    hold("lengths", a.number, b.number);
    hold("lengths", a.words + a.longs + a.floats + a.contexts + a.history, 0);
    hold("reply length", c.number, d.number);
    hold("reply length", c.size, 0);
    hold("open", jeqlluna_open(NULL, 0, NULL, 0, NULL, 0, NULL, 0, NULL, 0, NULL, 0), JEQLLUNA_SAMPLES);
}

/* A renderer with one of its slices empty (k is 0 to 4), or all (5): refused, by 3 and 4. */
static void short_slices(const Counts *counts) {
    uint8_t p[JEQLLUNA_PARAMETERS], reply[1];
    float frames[1];
    Desk whole = open_desk(counts), before = open_desk(counts);
    int k;
    put_parameters(p, counts);
    for (k = 0; k < 6; k++) {
        Desk d = whole;
        uint32_t expected = 4;
        if (k == 0 || k == 5) {
            d.words = NULL, d.n.words = 0;
        }
        if (k == 1 || k == 5) {
            d.longs = NULL, d.n.longs = 0;
        }
        if (k == 2 || k == 5) {
            d.floats = NULL, d.n.floats = 0;
        }
        if (k == 3 || k == 5) {
            expected = d.n.contexts == 0 && k == 3 ? 0 : 4;
            d.contexts = NULL, d.n.contexts = 0;
        }
        if (k == 4 || k == 5) {
            expected = d.n.history == 0 && k == 4 ? 0 : 4;
            d.history = NULL, d.n.history = 0;
        }
        if (expected == 4) {
            hold("open", desk_open(&d, p, sizeof p), JEQLLUNA_LENGTHS);
            hold("update", desk_update(&d, 0, NULL, 0, reply, 0).number, JEQLLUNA_STATE);
            hold("render", desk_render(&d, NULL, 0, frames, 0).number, JEQLLUNA_STATE);
            hold("section", desk_section(&d, 1025, NULL, 0, NULL, 0, NULL, 0).number, JEQLLUNA_STATE);
            hold("section of none", desk_section(&d, 0, NULL, 0, NULL, 0, NULL, 0).number, JEQLLUNA_STATE);
        } else {
            hold("open", desk_open(&d, p, sizeof p), JEQLLUNA_OK);
        }
        hold("mix order",
             jeqlluna_mix_order(
                 d.words, d.n.words, d.longs, d.n.longs, d.floats, d.n.floats, d.contexts, d.n.contexts, d.history, d.n.history)
                 .number,
             expected);
        hold("state", same_desks(&whole, &before), 1);
    }
    close_desk(&whole);
    close_desk(&before);
}

/* Sections without ranges, memory or frames on two desks that hold the same; those of no render need none of them and change nothing. */
static void sections_of(Desk *a, Desk *b, const uint8_t *memory) {
    static float frames[1024], others[1024];
    const uint64_t range[3] = {BASE, 0, 0}, longer[3] = {BASE, 0, 1}, whole[3] = {BASE, 0, 64};
    hold("section without frames", desk_section(a, 1, whole, 3, memory, 64, NULL, 0).number, JEQLLUNA_FRAMES);
    hold("section without anything", desk_section(a, 2, NULL, 0, NULL, 0, NULL, 0).number, JEQLLUNA_FRAMES);
    hold("section of too many without anything", desk_section(a, 1025, NULL, 0, NULL, 0, NULL, 0).number, JEQLLUNA_COUNT);
    hold("section of none, a range without memory", desk_section(a, 0, longer, 3, NULL, 0, NULL, 0).number, JEQLLUNA_RANGES);
    hold("section of none without frames", desk_section(a, 0, whole, 3, memory, 64, NULL, 0).number, JEQLLUNA_OK);
    hold("section of none without anything", desk_section(a, 0, NULL, 0, NULL, 0, NULL, 0).number, JEQLLUNA_OK);
    hold("state", same_desks(a, b), 1);
    hold("section without memory", desk_section(a, 2, range, 3, NULL, 0, frames, 1024).rounds,
         desk_section(b, 2, range, 3, memory, 0, others, 1024).rounds);
    hold("section without ranges", desk_section(a, 2, NULL, 0, memory, 64, frames, 1024).rounds,
         desk_section(b, 2, range, 0, memory, 64, others, 1024).rounds);
    hold("section without both", desk_section(a, 1, NULL, 0, NULL, 0, frames, 1024).rounds,
         desk_section(b, 1, range, 3, NULL, 0, others, 1024).rounds);
    hold("frames", memcmp(frames, others, sizeof frames) == 0, 1);
}

/* No input, no sample memory, no ranges, no reply and no frames, each alone and together, for voices that play. */
static void calls_of(const Counts *counts) {
    static uint8_t reply[20000], other[20000];
    static float frames[512], others[512];
    const uint8_t some[1] = {0};
    const uint64_t range[3] = {BASE, 0, 0}, longer[3] = {BASE, 0, 1};
    size_t size = title_size(counts);
    uint8_t *title = (uint8_t *)room(size);
    const Sound sound = {2, 1.0f, 0.5f};
    Desk a = open_desk(counts), b = open_desk(counts);
    uint64_t seed = 7;
    put_title(title, counts, &sound, 1, &seed);
    hold("update", desk_update(&a, 0, title, size, reply, sizeof reply).number, 0);
    hold("update", desk_update(&b, 0, title, size, other, sizeof other).number, 0);
    hold("update without input", desk_update(&a, 9000, NULL, 0, reply, sizeof reply).size,
         desk_update(&b, 9000, some, 0, other, sizeof other).size);
    hold("reply", memcmp(reply, other, sizeof reply) == 0, 1);
    hold("state", same_desks(&a, &b), 1);
    hold("render without memory", desk_render(&a, NULL, 0, frames, 512).rounds, desk_render(&b, some, 0, others, 512).rounds);
    hold("frames", memcmp(frames, others, sizeof frames) == 0, 1);
    hold("state", same_desks(&a, &b), 1);
    hold("render without ranges", desk_render_ranges(&a, NULL, 0, title, 64, frames, 512).rounds,
         desk_render_ranges(&b, range, 0, title, 64, others, 512).rounds);
    hold("frames", memcmp(frames, others, sizeof frames) == 0, 1);
    hold("state", same_desks(&a, &b), 1);
    hold("render with no range and no memory", desk_render_ranges(&a, NULL, 0, NULL, 0, frames, 512).rounds,
         desk_render_ranges(&b, range, 3, NULL, 0, others, 512).rounds);
    hold("frames", memcmp(frames, others, sizeof frames) == 0, 1);
    hold("state", same_desks(&a, &b), 1);
    hold("a range without memory", desk_render_ranges(&a, longer, 3, NULL, 0, frames, 512).number, JEQLLUNA_RANGES);
    hold("update without reply", desk_update(&a, 0, title, size, NULL, 0).number, JEQLLUNA_REPLY);
    hold("update without both", desk_update(&a, 0, NULL, 0, NULL, 0).number, JEQLLUNA_REPLY);
    hold("render without frames", desk_render(&a, title, 1, NULL, 0).number, JEQLLUNA_FRAMES);
    hold("render without both", desk_render(&a, NULL, 0, NULL, 0).number, JEQLLUNA_FRAMES);
    hold("render without anything", desk_render_ranges(&a, NULL, 0, NULL, 0, NULL, 0).number, JEQLLUNA_FRAMES);
    sections_of(&a, &b, title);
    hold("state", same_desks(&a, &b), 1);
    close_desk(&a);
    close_desk(&b);
    free(title);
}

/* ADPCM: no data, no coefficients, no output. */
static void adpcm(void) {
    const uint8_t data[8] = {0x01, 0x23, 0x45, 0x67, 0x01, 0x23, 0x45, 0x67};
    const int16_t pairs[16] = {0};
    const JeqllunaContext context = {0x12, -3, 4};
    float output[14] = {0}, other[14] = {0};
    JeqllunaDecoded d = jeqlluna_decode_adpcm(NULL, 0, 0, 14, pairs, 16, context, output, 14);
    hold("decode without data", d.number, 0);
    hold("decode without data", d.done, 0);
    d = jeqlluna_decode_adpcm(data, 8, 0, 14, NULL, 0, context, output, 14);
    hold("decode without coefficients", d.done, 14);
    hold("decode without coefficients", d.number, 0);
    hold("decode with zeros", jeqlluna_decode_adpcm(data, 8, 0, 14, pairs, 16, context, other, 14).done, 14);
    hold("samples", memcmp(output, other, sizeof output) == 0, 1);
    d = jeqlluna_decode_adpcm(data, 8, 0, 0, pairs, 16, context, NULL, 0);
    hold("decode without output", d.number, 0);
    hold("decode without output", d.context.pred_scale, 0x12);
    d = jeqlluna_decode_adpcm(data, 8, 0, 1, pairs, 16, context, NULL, 0);
    hold("decode without room", d.number, JEQLLUNA_OUTPUT);
    d = jeqlluna_decode_adpcm(NULL, 0, 0, 0, NULL, 0, context, NULL, 0);
    hold("decode of nothing", d.number, 0);
    hold("decode of nothing", d.context.history0 == -3, 1);
}

/* Encodes: no samples, no coefficients, no output. */
static void encode(void) {
    const int16_t samples[3] = {100, -200, 300}, pairs[16] = {0};
    const JeqllunaContext context = {0x12, -3, 4};
    uint8_t output[3] = {0}, other[3] = {0};
    JeqllunaEncoded e = jeqlluna_encode_adpcm(samples, 3, NULL, 0, context, output, 3);
    hold("encode without coefficients", e.number, 0);
    hold("encode without coefficients", e.size, 3);
    hold("encode with zeros", jeqlluna_encode_adpcm(samples, 3, pairs, 16, context, other, 3).error, (unsigned long)e.error);
    hold("bytes", memcmp(output, other, sizeof output) == 0, 1);
    e = jeqlluna_encode_adpcm(NULL, 0, pairs, 16, context, output, 3);
    hold("encode without samples", e.number, 0);
    hold("encode without samples", e.size + e.error, 0);
    hold("encode without samples", e.context.pred_scale == 0x12 && e.context.history0 == -3 && e.context.history1 == 4, 1);
    hold("bytes", memcmp(output, other, sizeof output) == 0, 1);
    hold("encode without output", jeqlluna_encode_adpcm(samples, 3, pairs, 16, context, NULL, 0).number, JEQLLUNA_ENCODED);
    hold("encode of nothing", jeqlluna_encode_adpcm(NULL, 0, NULL, 0, context, NULL, 0).number, 0);
}

/* DSP files: no file, no data, no output. */
static void dsp(void) {
    uint8_t file[96] = {0}, output[96] = {0};
    JeqllunaDspRead r = jeqlluna_read_dsp(NULL, 0), s;
    JeqllunaDspWritten w;
    hold("read of nothing", r.number, JEQLLUNA_DSP_HEADER);
    hold("read of nothing", r.data + r.data_len + r.header.samples, 0);
    file[0x0b] = 77;
    s = jeqlluna_read_dsp(file, sizeof file);
    hold("read without data", s.number, 0);
    hold("read without data", s.data, 96);
    hold("read without data", s.data_len, 0);
    w = jeqlluna_write_dsp(s.header, NULL, 0, output, sizeof output);
    hold("write without data", w.number, 0);
    hold("write without data", w.size, 96);
    hold("file", memcmp(file, output, sizeof file) == 0, 1);
    hold("write without output", jeqlluna_write_dsp(s.header, file, sizeof file, NULL, 0).number, JEQLLUNA_DSP_LENGTH);
    hold("write of nothing", jeqlluna_write_dsp(s.header, NULL, 0, NULL, 0).number, JEQLLUNA_DSP_LENGTH);
    s.header.gain = 1;
    hold("write of nothing", jeqlluna_write_dsp(s.header, NULL, 0, NULL, 0).number, JEQLLUNA_DSP_HEADER);
}

/* Merges: no parameters, no title, no click, no output. */
static void merge(void) {
    uint8_t p[JEQLLUNA_PARAMETERS], output[0x40], zeros[0x40] = {0};
    JeqllunaMerged m;
    put_parameters(p, &SMALL);
    m = jeqlluna_merge(p, sizeof p, NULL, 0, NULL, 0, NULL, 0);
    hold("merge without output", m.number, JEQLLUNA_BLOCK);
    hold("merge without output", m.size, 0);
    p[0x10] = 0;
    memset(output, 0x5a, sizeof output);
    m = jeqlluna_merge(p, sizeof p, NULL, 0, NULL, 0, output, sizeof output);
    hold("merge without blocks", m.number, 0);
    hold("merge without blocks", m.size, sizeof output);
    hold("header", memcmp(output, zeros, sizeof output) == 0, 1);
    hold("merge without a click", jeqlluna_merge(p, sizeof p, zeros, sizeof zeros, NULL, 0, output, sizeof output).size, sizeof output);
    hold("merge without a title", jeqlluna_merge(p, sizeof p, NULL, 0, zeros, sizeof zeros, output, sizeof output).size, sizeof output);
    hold("merge without parameters", jeqlluna_merge(NULL, 0, zeros, sizeof zeros, zeros, sizeof zeros, output, sizeof output).number, 0);
    hold("merge of nothing", jeqlluna_merge(NULL, 0, NULL, 0, NULL, 0, NULL, 0).number, JEQLLUNA_BLOCK);
}

int main(void) {
    static const Counts nothing = {48000, 2, 0, 0, 0, 0, 0, 0, 0, 5};
    parameters();
    short_slices(&nothing);
    short_slices(&SMALL);
    short_slices(&LARGEST);
    calls_of(&nothing);
    calls_of(&SMALL);
    calls_of(&MIDDLE);
    adpcm();
    encode();
    dsp();
    merge();
    printf("%d answers with NULL\n", calls);
    return 0;
}
