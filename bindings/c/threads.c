/* Eight threads, each with its own renderer, DSP files, encodes and merges, all with the same sample memory, give the frames, replies,
 * states, files and bytes that each gives alone: threads [RENDERS]. Every fourth render is a section of two. */
#ifndef _GNU_SOURCE
#define _GNU_SOURCE 1
#endif
#include <pthread.h>
#include <stdio.h>
#include <stdlib.h>

#include "dsp.h"
#include "title.h"

#define THREADS 8

static uint8_t memory[MEMORY];
static long renders = 400;
static pthread_barrier_t start;

typedef struct {
    uint64_t seed, result;
    int together;
} Work;

/* Goes on from a sum over a DSP file that is read and written again, on the thread's own stack. */
static uint64_t dsp(uint64_t s, uint64_t *seed) {
    uint8_t file[DSP_MOST], output[DSP_MOST];
    size_t n = put_dsp(seed, file);
    JeqllunaDspRead r = jeqlluna_read_dsp(file, n);
    JeqllunaDspWritten w = jeqlluna_write_dsp(r.header, file + r.data, r.data_len, output, sizeof output);
    if (w.number != 0 || (r.number == 0 && (w.size != n || sum(1, file, n) != sum(1, output, n)))) {
        fail("a DSP file: read %u, written %u", (unsigned)r.number, (unsigned)w.number);
    }
    return sum(sum(s, output, w.size), &r.number, sizeof r.number);
}

/* Goes on from a sum over the frames of any samples, on the thread's own stack. */
static uint64_t encode(uint64_t s, uint64_t *seed) {
    int16_t samples[40], pairs[16];
    uint8_t output[24];
    const JeqllunaContext context = {0, 1, -1};
    JeqllunaEncoded e;
    put_random(seed, (uint8_t *)samples, sizeof samples);
    put_random(seed, (uint8_t *)pairs, sizeof pairs);
    e = jeqlluna_encode_adpcm(samples, 40, pairs, 16, context, output, sizeof output);
    if (e.number != 0) {
        fail("encode: %s", jeqlluna_refusal(e.number));
    }
    return sum(sum(s, output, e.size), &e.error, sizeof e.error);
}

/* Goes on from a sum over the merged block of a title and a click of a few bytes, which has no voice: the title again. */
static uint64_t merge(uint64_t s, const Counts *c, const uint8_t *title, uint8_t *output, uint64_t *seed) {
    uint8_t p[JEQLLUNA_PARAMETERS], click[0x40];
    size_t size = title_size(c);
    JeqllunaMerged m;
    put_parameters(p, c);
    put_random(seed, click, sizeof click);
    m = jeqlluna_merge(p, sizeof p, title, size, click, below(seed, sizeof click), output, size);
    if (m.number != 0 || m.size != size || sum(1, title, size) != sum(1, output, size)) {
        fail("merge: %s", jeqlluna_refusal(m.number));
    }
    return sum(s, output, m.size);
}

/* A session by its seed; the result sums up all that the calls gave. */
static void *run(void *given) {
    static const int formats[] = {2, 5, 6};
    Work *w = (Work *)given;
    uint64_t seed = w->seed, s = 1;
    const Counts *c = w->seed % 2 == 0 ? &MIDDLE : &SMALL;
    Sound sound = {formats[w->seed % 3], 0.5f + (float)(w->seed % 7) / 4.0f, 0.75f};
    const uint64_t range[3] = {BASE, 0, MEMORY};
    size_t size = title_size(c), n = 2 * c->samples;
    uint8_t *title = (uint8_t *)room(size), *both = (uint8_t *)room(size), *reply = (uint8_t *)room(20000);
    float *frames = (float *)room(2 * n * sizeof *frames);
    Desk d = open_desk(c);
    long k;
    if (w->together) {
        pthread_barrier_wait(&start);
    }
    for (k = 0; k < renders; k++) {
        JeqllunaRender r;
        if (k % 8 == 0) {
            JeqllunaUpdate u;
            put_title(title, c, &sound, k == 0, &seed);
            u = desk_update(&d, 9000, title, size, reply, 20000);
            if (u.number != 0) {
                fail("update: %s", jeqlluna_refusal(u.number));
            }
            s = sum(s, reply, u.size);
            s = merge(s, c, title, both, &seed);
        }
        r = k % 4 == 3 ? desk_section(&d, 2, range, 3, memory, MEMORY, frames, 2 * n) : desk_render(&d, memory, MEMORY, frames, n);
        if (r.number != 0) {
            fail("render: %s", jeqlluna_refusal(r.number));
        }
        s = sum(s, frames, (k % 4 == 3 ? 2 * n : n) * sizeof *frames);
        s = sum(s, &r.rounds, sizeof r.rounds);
        s = dsp(s, &seed);
        s = encode(s, &seed);
    }
    w->result = s ^ desk_sum(&d);
    close_desk(&d);
    free(title), free(both), free(reply), free(frames);
    return NULL;
}

int main(int argc, char **argv) {
    Work alone[THREADS], together[THREADS];
    pthread_t threads[THREADS];
    uint64_t seed = 3;
    int k;
    renders = argc > 1 ? atol(argv[1]) : renders;
    put_memory(&seed, memory);
    pthread_barrier_init(&start, NULL, THREADS);
    for (k = 0; k < THREADS; k++) {
        alone[k].seed = together[k].seed = (uint64_t)k + 1;
        alone[k].together = 0;
        together[k].together = 1;
        run(&alone[k]);
        if (k > 0 && alone[k].result == alone[k - 1].result) {
            fail("two sessions gave the same");
        }
    }
    for (k = 0; k < THREADS; k++) {
        if (pthread_create(&threads[k], NULL, run, &together[k]) != 0) {
            fail("no thread");
        }
    }
    for (k = 0; k < THREADS; k++) {
        pthread_join(threads[k], NULL);
        if (alone[k].result != together[k].result) {
            fail("thread %d gave something else than alone", k);
        }
    }
    printf("%d threads, %ld renders each, as alone\n", THREADS, renders);
    return 0;
}
