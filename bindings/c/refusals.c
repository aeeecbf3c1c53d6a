/* Each number from each call that can answer it, in the order of the questions; then the other results are 0 and nothing has changed. */
#include <stdio.h>
#include <stdlib.h>
#include <string.h>

#include "dsp.h"
#include "ranges.h"
#include "title.h"

static int answers = 0;

static void expect(const char *call, uint32_t number, uint32_t expected, int changed) {
    answers++;
    if (number != expected || changed) {
        fail("%s: answered %u where %u was due%s", call, (unsigned)number, (unsigned)expected, changed ? ", and something changed" : "");
    }
}

/* Whether n bytes all hold the mark. */
static int marked(const void *data, size_t n) {
    const uint8_t *d = (const uint8_t *)data;
    size_t k;
    for (k = 0; k < n; k++) {
        if (d[k] != 0x5a) {
            return 0;
        }
    }
    return 1;
}

static void counts_refused(void) {
    static const uint32_t at[7] = {0x08, 0x0c, 0x10, 0x14, 0x18, 0x24, 0x28}, most[7] = {96, 31, 64, 8, 64, 32, 128};
    uint8_t p[JEQLLUNA_PARAMETERS];
    uint32_t k, samples;
    JeqllunaLengths n;
    JeqllunaLength l;
    for (k = 0; k < 7; k++) {
        for (samples = 0; samples <= 257; samples += 257) {
            put_parameters(p, &SMALL);
            put_u32(p + 0x04, samples);
            put_u32(p + at[k], most[k] + 1);
            expect("lengths", jeqlluna_lengths(p, sizeof p).number, JEQLLUNA_SAMPLES, 0);
            expect("reply length", jeqlluna_reply_length(p, sizeof p, 0).number, JEQLLUNA_SAMPLES, 0);
            expect("open", jeqlluna_open(p, sizeof p, NULL, 0, NULL, 0, NULL, 0, NULL, 0, NULL, 0), JEQLLUNA_SAMPLES, 0);
        }
        put_parameters(p, &SMALL);
        put_u32(p + at[k], most[k] + 1);
        n = jeqlluna_lengths(p, sizeof p);
        expect("lengths", n.number, JEQLLUNA_COUNTS, n.words != 0 || n.longs != 0 || n.floats != 0 || n.contexts != 0 || n.history != 0);
        l = jeqlluna_reply_length(p, sizeof p, 9999);
        expect("reply length", l.number, JEQLLUNA_COUNTS, l.size != 0);
        expect("open", jeqlluna_open(p, sizeof p, NULL, 0, NULL, 0, NULL, 0, NULL, 0, NULL, 0), JEQLLUNA_COUNTS, 0);
        put_u32(p + at[k], most[k]);
        expect("lengths", jeqlluna_lengths(p, sizeof p).number, JEQLLUNA_OK, 0);
    }
}

/* One element too few in each slice by turns, and slices that hold no renderer. */
static void state_refused(void) {
    uint8_t p[JEQLLUNA_PARAMETERS], reply[400];
    float frames[32];
    int k;
    put_parameters(p, &SMALL);
    memset(reply, 0x5a, sizeof reply);
    memset(frames, 0x5a, sizeof frames);
    for (k = 0; k < 6; k++) {
        Desk d = open_desk(&SMALL);
        JeqllunaUpdate u;
        JeqllunaRender r;
        memset(d.words, 0x5a, d.n.words * sizeof *d.words);
        memset(d.longs, 0x5a, d.n.longs * sizeof *d.longs);
        memset(d.floats, 0x5a, d.n.floats * sizeof *d.floats);
        memset(d.contexts, 0x5a, d.n.contexts * sizeof *d.contexts);
        memset(d.history, 0x5a, d.n.history * sizeof *d.history);
        d.n.words -= k == 0;
        d.n.longs -= k == 1;
        d.n.floats -= k == 2;
        d.n.contexts -= k == 3;
        d.n.history -= k == 4;
        u = desk_update(&d, 400, NULL, 0, reply, sizeof reply);
        expect("update", u.number, JEQLLUNA_STATE, u.size != 0 || !marked(reply, sizeof reply));
        r = desk_render(&d, NULL, 0, frames, 32);
        expect("render", r.number, JEQLLUNA_STATE, r.rounds != 0 || !marked(frames, sizeof frames));
        r = desk_section(&d, (uint32_t)k, NULL, 0, NULL, 0, frames, 32);
        expect("section", r.number, JEQLLUNA_STATE, r.rounds != 0 || !marked(frames, sizeof frames));
        expect("open", desk_open(&d, p, sizeof p), k == 5 ? JEQLLUNA_OK : JEQLLUNA_LENGTHS, 0);
        if (k < 5) {
            expect("state", 0, 0, !marked(d.words, d.n.words * 4) || !marked(d.longs, d.n.longs * 8) || !marked(d.floats, d.n.floats * 4));
            expect("state", 0, 0, !marked(d.contexts, d.n.contexts * 2) || !marked(d.history, d.n.history * 4));
        }
        close_desk(&d);
    }
}

/* Ranges, memory, a section's count, reply and frames, in the order in which they are asked; bindings/c/ranges.c has each reason for 13,
 * bindings/c/sections.c each pair of a section's. */
static void rooms_refused(void) {
    uint8_t reply[1000], memory[16] = {0};
    uint64_t range[RANGE];
    float frames[31];
    Desk d = open_desk(&MIDDLE), before = open_desk(&MIDDLE);
    JeqllunaUpdate u;
    JeqllunaRender r;
    int k;
    memset(reply, 0x5a, sizeof reply);
    memset(frames, 0x5a, sizeof frames);
    u = desk_update(&d, 0xffffffff, NULL, 0, reply, sizeof reply);
    expect("update", u.number, JEQLLUNA_REPLY, u.size != 0 || !marked(reply, sizeof reply) || !same_desks(&d, &before));
    for (k = 0; k < 3; k++) {
        static const uint32_t numbers[] = {JEQLLUNA_RANGES, JEQLLUNA_MEMORY, JEQLLUNA_FRAMES};
        put_range(range, ((uint64_t)1 << 63) - 15 - (k == 2), k == 0, 16);
        r = desk_render_ranges(&d, range, RANGE, memory, 16, frames, 31);
        expect("render", r.number, numbers[k], r.rounds != 0 || !marked(frames, sizeof frames) || !same_desks(&d, &before));
        r = desk_section(&d, 1025, range, RANGE, memory, 16, frames, 31);
        expect("section", r.number, k < 2 ? numbers[k] : (uint32_t)JEQLLUNA_COUNT,
               r.rounds != 0 || !marked(frames, sizeof frames) || !same_desks(&d, &before));
        r = desk_section(&d, 1024, range, RANGE, memory, 16, frames, 31);
        expect("section", r.number, numbers[k], r.rounds != 0 || !marked(frames, sizeof frames) || !same_desks(&d, &before));
    }
    close_desk(&d);
    close_desk(&before);
}

static void adpcm_refused(void) {
    const JeqllunaContext context = {1, 2, 3};
    const uint8_t data[8] = {0};
    float output[2];
    JeqllunaDecoded d;
    memset(output, 0x5a, sizeof output);
    d = jeqlluna_decode_adpcm(data, 8, ((uint64_t)1 << 60) + 1, 3, NULL, 0, context, output, 2);
    expect("decode", d.number, JEQLLUNA_START, d.done != 0 || d.context.pred_scale != 0 || !marked(output, sizeof output));
    d = jeqlluna_decode_adpcm(data, 8, (uint64_t)1 << 60, 3, NULL, 0, context, output, 2);
    expect("decode", d.number, JEQLLUNA_OUTPUT, d.done != 0 || d.context.history0 != 0 || !marked(output, sizeof output));
}

/* Encodes to outputs of every length: 15 below what the samples take. */
static void encode_refused(void) {
    const int16_t samples[30] = {1000, -2000, 3000};
    const JeqllunaContext context = {1, 2, 3};
    uint8_t output[18];
    size_t n, room;
    for (n = 0; n <= 30; n++) {
        size_t size = n / 14 * 8 + (n % 14 > 0 ? 1 + (n % 14 + 1) / 2 : 0);
        for (room = 0; room <= size; room++) {
            JeqllunaEncoded e;
            memset(output, 0x5a, sizeof output);
            e = jeqlluna_encode_adpcm(samples, n, NULL, 0, context, output, room);
            if (room < size) {
                int zeros = e.size == 0 && e.error == 0 && e.context.pred_scale == 0 && e.context.history0 == 0 && e.context.history1 == 0;
                expect("encode", e.number, JEQLLUNA_ENCODED, !zeros || !marked(output, sizeof output));
            } else {
                expect("encode", e.number, JEQLLUNA_OK, e.size != size || !marked(output + size, sizeof output - size));
            }
        }
    }
}

/* Files and writes: 11 for each byte that it asks of, 12 after it. */
static void dsp_refused(void) {
    const JeqllunaDspRead none = {0, {0, 0, 0, 0, 0, 0, 0, 0, {0}, 0, {0, 0, 0}, {0, 0, 0}}, 0, 0};
    uint8_t file[96 + 9] = {0}, output[96 + 9];
    JeqllunaDspRead r;
    JeqllunaDspWritten w;
    size_t n, k;
    memset(output, 0x5a, sizeof output);
    memset(file, 0x11, 0x4a);
    memset(file, 0, 3);
    memset(file + 0x0e, 0, 2);
    memset(file + 0x3c, 0, 2);
    file[3] = 15; /* samples, which take 8 + 2 bytes */
    for (n = 0; n <= sizeof file; n++) {
        JeqllunaDspRead due = none;
        r = jeqlluna_read_dsp(file, n);
        due.number = n < 96 ? JEQLLUNA_DSP_HEADER : JEQLLUNA_DSP_LENGTH;
        expect("read", r.number, due.number, !same_reads(&r, &due));
    }
    for (k = 0; k < 96; k++) {
        int tested = k == 0x0e || k == 0x0f || k == 0x3c || k == 0x3d || k >= 0x4a;
        uint8_t before = file[k];
        file[k] = (uint8_t)(before + 1);
        expect("read", jeqlluna_read_dsp(file, sizeof file).number, tested ? JEQLLUNA_DSP_HEADER : JEQLLUNA_DSP_LENGTH, 0);
        file[k] = before;
    }
    file[3] = 14;
    r = jeqlluna_read_dsp(file, sizeof file);
    expect("read", r.number, JEQLLUNA_OK, r.header.samples != 14 || r.data != 96 || r.data_len != 9);
    for (n = 0; n < sizeof output; n++) {
        w = jeqlluna_write_dsp(r.header, file + 96, 9, output, n);
        expect("write", w.number, JEQLLUNA_DSP_LENGTH, w.size != 0 || !marked(output, sizeof output));
    }
    w = jeqlluna_write_dsp(r.header, file + 96, 7, output, sizeof output);
    expect("write", w.number, JEQLLUNA_DSP_LENGTH, w.size != 0 || !marked(output, sizeof output));
    for (k = 0; k < 3; k++) {
        r.header.format = k < 2;
        r.header.gain = k > 0 ? 0x100 : 0;
        w = jeqlluna_write_dsp(r.header, file + 96, 7 + k, output, k < 2 ? sizeof output : 0);
        expect("write", w.number, JEQLLUNA_DSP_HEADER, w.size != 0 || !marked(output, sizeof output));
    }
}

/* Merges: 2, 16, 17 and 18, each with all that come after it, and then alone. */
static void merge_refused(void) {
    static const uint32_t at[7] = {0x08, 0x0c, 0x10, 0x14, 0x18, 0x24, 0x28}, most[7] = {96, 31, 64, 8, 64, 32, 128};
    const size_t size = 0x40 + 2 * 0x170, needed = 0x40 + 2 * (0x70 + 0x170);
    uint8_t p[JEQLLUNA_PARAMETERS], title[0x40 + 2 * 0x170] = {0}, click[0x40 + 2 * 0x170] = {0}, output[0x40 + 2 * (0x70 + 0x170)];
    JeqllunaMerged m;
    size_t n, k;
    memset(output, 0x5a, sizeof output);
    put_parameters(p, &SMALL);
    put_u32(p + 0x10, 2);
    put_u32(title + 0x0c, 2 * 0x170);
    put_u32(click + 0x0c, 2 * 0x170);
    /* Voice 0 is in use in both, voice 1 in the click, and all name channel 0. */
    title[0x40 + 9] = click[0x40 + 9] = click[0x40 + 0x170 + 9] = 1;
    for (k = 0; k < 7; k++) {
        uint8_t above[JEQLLUNA_PARAMETERS];
        memcpy(above, p, sizeof p);
        put_u32(above + at[k], most[k] + 1);
        m = jeqlluna_merge(above, sizeof above, title, size, click, size, output, needed - 1);
        expect("merge", m.number, JEQLLUNA_COUNTS, m.size != 0 || !marked(output, sizeof output));
    }
    put_u32(p + 0x04, 0); /* samples are not asked for */
    m = jeqlluna_merge(p, sizeof p, title, size, click, size, output, needed - 1);
    expect("merge", m.number, JEQLLUNA_VOICES, m.size != 0 || !marked(output, sizeof output));
    click[0x40 + 9] = 0;
    m = jeqlluna_merge(p, sizeof p, title, size, click, size, output, needed - 1);
    expect("merge", m.number, JEQLLUNA_CHANNELS, m.size != 0 || !marked(output, sizeof output));
    click[0x40 + 0x170 + 0x140] = 1;
    for (n = 0; n < needed; n++) {
        m = jeqlluna_merge(p, sizeof p, title, size, click, size, output, n);
        expect("merge", m.number, JEQLLUNA_BLOCK, m.size != 0 || !marked(output, sizeof output));
    }
    m = jeqlluna_merge(p, sizeof p, title, size, click, size, output, needed);
    expect("merge", m.number, JEQLLUNA_OK, m.size != needed);
}

int main(void) {
    counts_refused();
    state_refused();
    rooms_refused();
    adpcm_refused();
    encode_refused();
    dsp_refused();
    merge_refused();
    printf("%d answers by number\n", answers);
    return 0;
}
