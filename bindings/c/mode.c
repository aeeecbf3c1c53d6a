/* What happens in another floating-point mode than the one that the proofs assume: mode [SESSIONS]. The same sessions in each mode, the
 * last call of each a section, the mode set around the library's calls alone; prints how many calls gave something else than in the mode
 * assumed, and how many were ended by SIGFPE. It fails where a session in the mode assumed is not the same twice, where an answer's number
 * or a reply's length differs while exceptions are masked, and where a mode said to matter (include/jeqlluna.h) makes no difference. */
#ifndef _GNU_SOURCE
#define _GNU_SOURCE 1
#endif
#include <fenv.h>
#include <setjmp.h>
#include <signal.h>
#include <stdio.h>
#include <stdlib.h>
#include <string.h>
#include <xmmintrin.h>

#include "title.h"

#define CALLS 15
#define SECTION 8 /* renders of the last call */
#define ASSUMED 0x1f80u /* MXCSR: exceptions masked, to nearest, nothing flushed */

typedef struct {
    const char *name;
    int rounding;   /* for fesetround */
    unsigned mxcsr; /* 0 where fesetround sets it */
    int masked, matters;
} Mode;

static const Mode modes[] = {
    {"the mode assumed", FE_TONEAREST, ASSUMED, 1, 0},
    {"upward", FE_UPWARD, 0, 1, 1},
    {"downward", FE_DOWNWARD, 0, 1, 1},
    {"toward zero", FE_TOWARDZERO, 0, 1, 1},
    {"FTZ", FE_TONEAREST, ASSUMED | 0x8000, 1, 1},
    {"DAZ", FE_TONEAREST, ASSUMED | 0x0040, 1, 1},
    {"FTZ and DAZ", FE_TONEAREST, ASSUMED | 0x8040, 1, 1},
    {"invalid unmasked", FE_TONEAREST, ASSUMED & ~0x0080u, 0, 0},
    {"denormal unmasked", FE_TONEAREST, ASSUMED & ~0x0100u, 0, 1},
    {"divide by zero unmasked", FE_TONEAREST, ASSUMED & ~0x0200u, 0, 0},
    {"overflow unmasked", FE_TONEAREST, ASSUMED & ~0x0400u, 0, 0},
    {"underflow unmasked", FE_TONEAREST, ASSUMED & ~0x0800u, 0, 1},
    {"inexact unmasked", FE_TONEAREST, ASSUMED & ~0x1000u, 0, 1},
};

/* What a call gave. */
typedef struct {
    int render, trapped;
    uint32_t number, rounds;
    size_t size;
    uint64_t data, state;
} Gave;

static uint8_t memory[MEMORY];
static sigjmp_buf away;

static void trapped(int signal) {
    (void)signal;
    siglongjmp(away, 1);
}

static void set(const Mode *m) {
    if (m->mxcsr == 0) {
        fesetround(m->rounding);
    } else {
        _mm_setcsr(m->mxcsr);
    }
}

static void reset(void) {
    fesetround(FE_TONEAREST);
    _mm_setcsr(ASSUMED);
}

/* One session by its seed; gives how many calls it made, fewer than CALLS where a signal ended one. */
static int session(const Mode *m, uint64_t seed, Gave gave[CALLS]) {
    static const int formats[] = {2, 5, 6};
    static const float volumes[] = {1.0f, 0.7f, 1.3f, 1e-20f, 1e-38f, 1e-42f};
    static uint8_t reply[20000], title[200000];
    static float frames[SECTION * 512];
    const uint64_t range[3] = {BASE, 0, MEMORY};
    Counts c = SMALL;
    Sound sound;
    static Desk d;
    volatile int k;
    c.samples = 1 + below(&seed, 256);
    c.voices = 1 + below(&seed, 4);
    c.sub_mixes = below(&seed, 3);
    c.mix_buffers = 2 + 2 * c.sub_mixes;
    c.rate = 8000 + below(&seed, 90000);
    c.revision = (int)below(&seed, 10);
    sound.format = formats[below(&seed, 3)];
    sound.pitch = (float)(1 + below(&seed, 30)) / (below(&seed, 2) == 0 ? 10.0f : 7.0f);
    sound.volume = volumes[below(&seed, 6)];
    d = open_desk(&c);
    memset(gave, 0, CALLS * sizeof *gave);
    for (k = 0; k < CALLS; k++) {
        Gave *g = &gave[k];
        g->render = k % 3 != 0;
        if (!g->render) {
            if (k > 0) {
                sound.volume = volumes[below(&seed, 6)];
            }
            put_title(title, &c, &sound, k == 0, &seed);
        }
        if (sigsetjmp(away, 1) != 0) {
            reset();
            g->trapped = 1;
            k++;
            break;
        }
        if (g->render) {
            JeqllunaRender r;
            uint32_t renders = k == CALLS - 1 ? SECTION : 1;
            set(m);
            r = renders == 1 ? desk_render(&d, memory, MEMORY, frames, 512)
                             : desk_section(&d, renders, range, 3, memory, MEMORY, frames, SECTION * 512);
            reset();
            g->number = r.number;
            g->rounds = r.rounds;
            g->data = sum(1, frames, renders * 2 * c.samples * sizeof *frames);
        } else {
            JeqllunaUpdate u;
            set(m);
            u = desk_update(&d, 9000, title, title_size(&c), reply, sizeof reply);
            reset();
            g->number = u.number;
            g->size = u.size;
            g->data = sum(1, reply, u.size);
        }
        g->state = desk_sum(&d);
    }
    close_desk(&d);
    return k;
}

/* What differs from the mode assumed. */
typedef struct {
    long renders, updates, frames, rounds, replies, states, numbers, traps;
} Tally;

static void add(Tally *t, const Gave *now, const Gave *assumed) {
    t->renders += now->render;
    t->updates += !now->render;
    t->traps += now->trapped;
    if (now->trapped) {
        return;
    }
    t->frames += now->render && now->data != assumed->data;
    t->replies += !now->render && now->data != assumed->data;
    t->rounds += now->rounds != assumed->rounds;
    t->states += now->state != assumed->state;
    t->numbers += now->number != assumed->number || now->size != assumed->size;
}

int main(int argc, char **argv) {
    long sessions = argc > 1 ? atol(argv[1]) : 2000, k;
    size_t m;
    struct sigaction action;
    uint64_t seed = 9;
    put_memory(&seed, memory);
    memset(&action, 0, sizeof action);
    action.sa_handler = trapped;
    sigaction(SIGFPE, &action, NULL);
    for (m = 0; m < sizeof modes / sizeof *modes; m++) {
        Tally t;
        memset(&t, 0, sizeof t);
        for (k = 0; k < sessions; k++) {
            static Gave assumed[CALLS], now[CALLS];
            int n, i;
            session(&modes[0], (uint64_t)k + 1, assumed);
            n = session(&modes[m], (uint64_t)k + 1, now);
            for (i = 0; i < n; i++) {
                add(&t, &now[i], &assumed[i]);
            }
        }
        printf("%-24s of %ld renders %ld frames and %ld rounds differ, of %ld updates %ld replies, of all %ld states, %ld numbers;",
               modes[m].name, t.renders, t.frames, t.rounds, t.updates, t.replies, t.states, t.numbers);
        printf(" %ld ended by SIGFPE\n", t.traps);
        if (modes[m].masked && (t.numbers > 0 || t.traps > 0)) {
            fail("%s: an answer's number differs", modes[m].name);
        }
        if (m == 0 && t.frames + t.replies + t.states > 0) {
            fail("%s: not the same twice", modes[m].name);
        }
        if (modes[m].matters && (modes[m].masked ? t.frames : t.traps) == 0) {
            fail("%s: makes no difference", modes[m].name);
        }
    }
    return 0;
}
