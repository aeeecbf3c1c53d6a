/* The stack that each call takes, by painting: a call runs on a thread whose stack was filled with a pattern, and the lowest place that
 * has changed says how deep it went. It fails where a call takes more than JEQLLUNA_STACK, or the deepest less than half of it.
 * bindings/stack runs it. */
#ifndef _GNU_SOURCE
#define _GNU_SOURCE 1
#endif
#include <pthread.h>
#include <stdio.h>
#include <stdlib.h>
#include <string.h>
#include <sys/mman.h>

#include "ranges.h"
#include "title.h"

#define STACK (1u << 20)
#define NEAR 512u /* the frame of the function that paints; a call that takes less is not told from it */
#define PAINT 0x9e3779b97f4a7c15u

#define RENDERS 2 /* of a section */

enum { LENGTHS, REPLY_LENGTH, OPEN, UPDATE, RENDER, SECTION, ORDER, DECODE, MERGE, ENCODE, READ_DSP, WRITE_DSP };
static const char *const names[] = {
    "lengths", "reply length", "open", "update", "render", "section", "mix order", "decode", "merge", "encode", "read DSP", "write DSP"};

typedef struct {
    int call, cut; /* cut: whether the memory of a render or section is in ranges that touch */
    const Counts *counts;
    Desk *desk;
    const uint8_t *title;
    uint32_t number;
    size_t depth;
} Work;

static uint64_t *low; /* the lowest place of the stack */
static int16_t samples[MEMORY / 2];
static uint8_t memory[MEMORY], slice[MEMORY], reply[20000], parameters[JEQLLUNA_PARAMETERS], block[200000];
static uint64_t ranges[NUMBERS_MOST];
static size_t numbers; /* of the ranges */
static float frames[RENDERS * 512];
static size_t deepest = 0;

/* An encode, and the calls for DSP files, apart, so that their larger answers are not counted for other calls. */
__attribute__((noinline)) static void encode_call(Work *w) {
    static const int16_t pairs[16] = {2048, 0, 3680, -1664, 3120, -1104};
    const JeqllunaContext context = {0, 0, 0};
    w->number = jeqlluna_encode_adpcm(samples, MEMORY / 2, pairs, 16, context, reply, sizeof reply).number;
}

__attribute__((noinline)) static void file_call(Work *w) {
    static JeqllunaDsp header; /* of no samples */
    w->number = w->call == READ_DSP ? jeqlluna_read_dsp(reply, sizeof reply).number
                                    : jeqlluna_write_dsp(header, memory, MEMORY, reply, sizeof reply).number;
}

static void call(Work *w) {
    static const int16_t pairs[16] = {2048, 0, 1024, 512};
    static const uint64_t whole[RANGE] = {BASE, 0, MEMORY};
    const JeqllunaContext context = {0, 0, 0};
    Desk *d = w->desk;
    switch (w->call) {
    case LENGTHS:
        w->number = jeqlluna_lengths(parameters, sizeof parameters).number;
        break;
    case REPLY_LENGTH:
        w->number = jeqlluna_reply_length(parameters, sizeof parameters, 9000).number;
        break;
    case OPEN:
        w->number = desk_open(d, parameters, sizeof parameters);
        break;
    case UPDATE:
        w->number = desk_update(d, 9000, w->title, title_size(w->counts), reply, sizeof reply).number;
        break;
    case RENDER:
        w->number = w->cut ? desk_render_ranges(d, ranges, numbers, slice, MEMORY, frames, 512).number
                           : desk_render(d, memory, MEMORY, frames, 512).number;
        break;
    case SECTION:
        w->number = desk_section(d, RENDERS, w->cut ? ranges : whole, w->cut ? numbers : RANGE, w->cut ? slice : memory, MEMORY, frames,
                                 RENDERS * 512)
                        .number;
        break;
    case ORDER:
        w->number = jeqlluna_mix_order(
                        d->words, d->n.words, d->longs, d->n.longs, d->floats, d->n.floats, d->contexts, d->n.contexts, d->history,
                        d->n.history)
                        .number;
        break;
    case DECODE:
        w->number = jeqlluna_decode_adpcm(memory, MEMORY, 0, 256, pairs, 16, context, frames, 512).number;
        break;
    case MERGE:
        w->number = jeqlluna_merge(
                        parameters, sizeof parameters, w->title, title_size(w->counts), memory, MEMORY, block, sizeof block)
                        .number;
        break;
    case ENCODE:
        encode_call(w);
        break;
    default:
        file_call(w);
    }
}

static void *painted(void *given) {
    Work *w = (Work *)given;
    uint64_t *here = (uint64_t *)((uintptr_t)__builtin_frame_address(0) & ~(uintptr_t)7), *p;
    for (p = low; p < here - NEAR / sizeof *p; p++) {
        *(volatile uint64_t *)p = PAINT;
    }
    call(w);
    for (p = low; p < here && *(volatile uint64_t *)p == PAINT; p++) {
    }
    w->depth = (size_t)((uint8_t *)here - (uint8_t *)p);
    return NULL;
}

/* A call once on the usual stack, so that the linker has found all it needs, and then so many times on a painted one; the most that one
 * took. */
static size_t measure(Work w, int times) {
    size_t most = 0;
    call(&w);
    for (; times > 0; times--) {
        pthread_attr_t attributes;
        pthread_t thread;
        pthread_attr_init(&attributes);
        if (pthread_attr_setstack(&attributes, low, STACK) != 0) {
            fail("no stack");
        }
        if (pthread_create(&thread, &attributes, painted, &w) != 0) {
            fail("no thread");
        }
        pthread_join(thread, NULL);
        pthread_attr_destroy(&attributes);
        if (w.number != 0) {
            fail("%s: %s", names[w.call], jeqlluna_refusal(w.number));
        }
        if (w.depth > most) {
            most = w.depth;
        }
    }
    if (most > deepest) {
        deepest = most;
    }
    return most;
}

static void print(const char *desk, const char *what, size_t bytes) {
    printf("%-8s %-28s %s %7lu bytes\n", desk, what, bytes > NEAR ? "       " : "at most", (unsigned long)bytes);
    if (bytes > JEQLLUNA_STACK) {
        fail("more than JEQLLUNA_STACK, %d", JEQLLUNA_STACK);
    }
}

static void desk(const char *name, const Counts *c) {
    static const struct {
        const char *name;
        Sound sound;
        int cut;
    } plays[] = {
        {"PCM16 at ratio 1", {2, 1.0f, 0.5f}, 0},
        {"PCM16 at ratio 0.9", {2, 0.9f, 0.5f}, 0},
        {"ADPCM at ratio 1", {6, 1.0f, 0.5f}, 0},
        {"ADPCM at ratio 16", {6, 16.0f, 0.5f}, 0},
        {"float at ratio 16", {5, 16.0f, 0.5f}, 0},
        {"PCM16 in ranges", {2, 1.0f, 0.5f}, 1},
        {"ADPCM in ranges", {6, 16.0f, 0.5f}, 1},
        {"float in ranges", {5, 16.0f, 0.5f}, 1},
    };
    uint8_t *title = (uint8_t *)room(title_size(c));
    Desk d = open_desk(c);
    Work w;
    uint64_t seed = 7;
    size_t k;
    put_parameters(parameters, c);
    memset(&w, 0, sizeof w);
    w.counts = c;
    w.desk = &d;
    w.title = title;
    for (w.call = LENGTHS; w.call <= OPEN; w.call++) {
        print(name, names[w.call], measure(w, 1));
    }
    for (k = 0; k < sizeof plays / sizeof *plays; k++) {
        put_title(title, c, &plays[k].sound, 1, &seed);
        w.call = UPDATE;
        if (k == 0) {
            print(name, "update, all voices new", measure(w, 2));
        } else {
            call(&w);
        }
        w.cut = plays[k].cut;
        for (w.call = RENDER; w.call <= SECTION; w.call++) {
            char what[40];
            sprintf(what, "%s, %s", names[w.call], plays[k].name);
            print(name, what, measure(w, 4));
        }
    }
    w.call = ORDER;
    print(name, names[ORDER], measure(w, 1));
    w.call = DECODE;
    print(name, names[DECODE], measure(w, 1));
    w.call = MERGE; /* with a click of any bytes, none of which is a record */
    print(name, names[MERGE], measure(w, 1));
    close_desk(&d);
    free(title);
}

/* The calls that need no desk: an encode; a DSP file written, and the same read. */
static void files(void) {
    Work w;
    memset(&w, 0, sizeof w);
    w.call = ENCODE;
    print("any", names[ENCODE], measure(w, 1));
    for (w.call = WRITE_DSP; w.call >= READ_DSP; w.call--) {
        print("any", names[w.call], measure(w, 1));
    }
}

int main(void) {
    uint64_t seed = 3;
    low = (uint64_t *)mmap(NULL, STACK, PROT_READ | PROT_WRITE, MAP_PRIVATE | MAP_ANONYMOUS, -1, 0);
    if (low == MAP_FAILED) {
        fail("mmap");
    }
    put_memory(&seed, memory);
    put_random(&seed, (uint8_t *)samples, sizeof samples);
    while ((numbers = cut_memory(&seed, memory, slice, ranges)) < 16 * RANGE) {
    }
    desk("small", &SMALL);
    desk("middle", &MIDDLE);
    desk("largest", &LARGEST);
    files();
    printf("deepest %lu bytes, JEQLLUNA_STACK %d\n", (unsigned long)deepest, JEQLLUNA_STACK);
    if (2 * deepest < JEQLLUNA_STACK) {
        fail("less than half of JEQLLUNA_STACK");
    }
    return 0;
}
