/* Many renders in one call: sections [SESSIONS]. A section gives what so many single renders give: the five slices and the frames to the
 * bit, and the rounds in sum; floats beyond stay. Each refusal in its sequence with the others, 4, 13, 5, 14, 7, changes nothing. A section
 * of no render is asked the same, needs no frames and changes nothing. It fails where most sections are silent, or none goes on after a
 * voice has ended. */
#include <stdio.h>
#include <stdlib.h>
#include <string.h>

#include "jeqlluna_title.h"
#include "ranges.h"
#include "title.h"

#define MOST 1024 /* renders of a section */
#define FAR ((uint64_t)1 << 63)

static long held = 0, sounding = 0, ending = 0;

/* Counts something that must be. */
static void hold(const char *what, int is) {
    held++;
    if (!is) {
        fail("%s", what);
    }
}

/* Whether one of so many floats is not 0. */
static int sounds(const float *frames, size_t n) {
    size_t k;
    for (k = 0; k < n; k++) {
        if (frames[k] != 0.0f) {
            return 1;
        }
    }
    return 0;
}

/* A title whose voices' buffers don't loop. */
static void put_clips(uint8_t *title, const Counts *c, const Sound *sound, uint64_t *seed) {
    size_t pools = (4 * c->voices + c->effects) * (size_t)JEQLLUNA_POOL_SIZE;
    uint8_t *voice = title + JEQLLUNA_UPDATE_HEADER_SIZE + pools + c->voices * (size_t)JEQLLUNA_CHANNEL_RESOURCE_SIZE;
    uint32_t v;
    put_title(title, c, sound, 1, seed);
    for (v = 0; v < c->voices; v++) {
        voice[v * (size_t)JEQLLUNA_VOICE_SIZE + JEQLLUNA_VOICE_WAVES + JEQLLUNA_WAVE_LOOPING] = 0;
    }
}

/* A section of so many renders on one desk, and as many single renders on another that holds the same. */
static void compare(Desk *a, Desk *b, const Counts *c, uint32_t renders, const uint64_t *numbers, size_t n, const uint8_t *memory) {
    size_t each = 2 * c->samples, all = renders * each, beyond = 3, k;
    float *joined = (float *)room((all + beyond) * sizeof *joined), *singles = (float *)room((all + beyond) * sizeof *singles);
    JeqllunaRender r, s;
    uint32_t rounds = 0;
    int silent = 1;
    memset(joined, 0x5a, (all + beyond) * sizeof *joined);
    memset(singles, 0x5a, (all + beyond) * sizeof *singles);
    r = desk_section(a, renders, numbers, n, memory, MEMORY, joined, all + beyond);
    for (k = 0; k < renders; k++) {
        s = desk_render_ranges(b, numbers, n, memory, MEMORY, singles + k * each, each);
        hold("a render is refused", s.number == JEQLLUNA_OK);
        rounds += s.rounds;
        ending += !silent && !sounds(singles + k * each, each);
        silent = !sounds(singles + k * each, each);
    }
    hold("a section is refused", r.number == JEQLLUNA_OK);
    hold("a section's rounds", r.rounds == rounds);
    hold("a section's frames, or those beyond", memcmp(joined, singles, (all + beyond) * sizeof *joined) == 0);
    hold("the state after a section", same_desks(a, b));
    sounding += sounds(joined, all);
    free(joined), free(singles);
}

/* One session on two desks, in sections of 0 to 12 renders: memory at once or in ranges that touch, cut anew for each section. */
static void session(uint64_t seed) {
    static const int formats[] = {2, 5, 6};
    static uint8_t memory[MEMORY], slice[MEMORY], reply[20000], title[400000];
    uint64_t numbers[NUMBERS_MOST];
    Counts c = below(&seed, 8) == 0 ? MIDDLE : SMALL;
    Sound sound;
    Desk a, b;
    int k;
    c.samples = 1 + below(&seed, 256);
    c.voices = 1 + below(&seed, 4);
    sound.format = formats[below(&seed, 3)];
    sound.pitch = (float)(1 + below(&seed, 400)) / 100.0f;
    sound.volume = 1.0f;
    a = open_desk(&c);
    b = open_desk(&c);
    put_memory(&seed, memory);
    for (k = 0; k < 6; k++) {
        size_t n = RANGE;
        memcpy(slice, memory, MEMORY);
        put_range(numbers, BASE, 0, MEMORY);
        if (k % 2 == 1) {
            n = cut_memory(&seed, memory, slice, numbers);
        }
        if (k % 3 == 0) {
            put_clips(title, &c, &sound, &seed);
            hold("update", desk_update(&a, 0, title, title_size(&c), reply, sizeof reply).number == JEQLLUNA_OK);
            hold("update", desk_update(&b, 0, title, title_size(&c), reply, sizeof reply).number == JEQLLUNA_OK);
        }
        compare(&a, &b, &c, below(&seed, 13), numbers, n, slice);
    }
    close_desk(&a);
    close_desk(&b);
}

/* A section with these numbers, count and room is answered so; where it is refused, or of no render, nothing changes. */
static void answered(Desk *d, uint32_t renders, const uint64_t *numbers, size_t floats, uint32_t number) {
    static const uint8_t memory[32] = {1};
    static float frames[(MOST + 1) * 32], before[(MOST + 1) * 32];
    Desk copy = copy_desk(d);
    JeqllunaRender r;
    memset(frames, 0x5a, sizeof frames);
    memset(before, 0x5a, sizeof before);
    r = desk_section(d, renders, numbers, RANGE, memory, sizeof memory, floats == 0 ? NULL : frames, floats);
    held++;
    if (r.number != number) {
        fail("a section of %u: answered %u where %u was due", (unsigned)renders, (unsigned)r.number, (unsigned)number);
    }
    if (number != JEQLLUNA_OK || renders == 0) {
        hold("a refusal changes something", same_desks(d, &copy) && memcmp(frames, before, sizeof frames) == 0 && r.rounds == 0);
    }
    close_desk(&copy);
}

/* Every way to be refused with every other: state, ranges, memory, count, frames. */
static void refused(void) {
    static const uint32_t counts[] = {0, 1, 2, 12, MOST - 1, MOST, MOST + 1, MOST + 2, 1 << 16, (uint32_t)1 << 31, 0xffffffff};
    static const struct {
        uint64_t numbers[RANGE];
        uint32_t number;
    } memories[] = {
        {{BASE, 0, 32}, JEQLLUNA_OK},
        {{FAR - 32, 0, 32}, JEQLLUNA_OK},
        {{FAR - 31, 0, 32}, JEQLLUNA_MEMORY},
        {{BASE, 1, 32}, JEQLLUNA_RANGES},
        {{FAR, 1, 32}, JEQLLUNA_RANGES},
    };
    Desk d = open_desk(&SMALL), none = open_desk(&SMALL);
    size_t k, m;
    memset(none.words, 0x5a, none.n.words * sizeof *none.words);
    for (k = 0; k < sizeof counts / sizeof *counts; k++) {
        int many = counts[k] > MOST;
        size_t floats = 32 * (size_t)(many ? MOST + 1 : counts[k]);
        for (m = 0; m < sizeof memories / sizeof *memories; m++) {
            uint32_t number = memories[m].number, shorter;
            if (number == JEQLLUNA_OK && many) {
                number = JEQLLUNA_COUNT;
            }
            shorter = number;
            if (number == JEQLLUNA_OK && counts[k] > 0) {
                shorter = JEQLLUNA_FRAMES;
            }
            answered(&none, counts[k], memories[m].numbers, floats, JEQLLUNA_STATE);
            answered(&none, counts[k], memories[m].numbers, 0, JEQLLUNA_STATE);
            answered(&d, counts[k], memories[m].numbers, floats, number);
            answered(&d, counts[k], memories[m].numbers, floats == 0 ? 0 : floats - 1, shorter);
            answered(&d, counts[k], memories[m].numbers, 0, shorter);
        }
    }
    close_desk(&d);
    close_desk(&none);
}

/* A section of one on a desk that holds the same is a render, refusals too, and as many as are allowed are so many. */
static void largest(void) {
    static uint8_t memory[MEMORY], reply[20000], title[200000];
    static const uint32_t counts[] = {1, MOST - 1, 1, MOST};
    const Sound sound = {6, 0.7f, 1.0f};
    uint64_t whole[RANGE], outside[RANGE], seed = 6;
    float frames[32];
    Desk a = open_desk(&SMALL), b = open_desk(&SMALL);
    size_t k;
    put_range(whole, BASE, 0, MEMORY);
    put_range(outside, BASE, 1, MEMORY);
    put_memory(&seed, memory);
    put_title(title, &SMALL, &sound, 1, &seed);
    hold("update", desk_update(&a, 0, title, title_size(&SMALL), reply, sizeof reply).number == JEQLLUNA_OK);
    hold("update", desk_update(&b, 0, title, title_size(&SMALL), reply, sizeof reply).number == JEQLLUNA_OK);
    for (k = 0; k < sizeof counts / sizeof *counts; k++) {
        compare(&a, &b, &SMALL, counts[k], whole, RANGE, memory);
        hold("13 of one", desk_section(&a, 1, outside, RANGE, memory, MEMORY, frames, 31).number == JEQLLUNA_RANGES &&
                              desk_render_ranges(&b, outside, RANGE, memory, MEMORY, frames, 31).number == JEQLLUNA_RANGES);
        hold("7 of one", desk_section(&a, 1, whole, RANGE, memory, MEMORY, frames, 31).number == JEQLLUNA_FRAMES &&
                             desk_render_ranges(&b, whole, RANGE, memory, MEMORY, frames, 31).number == JEQLLUNA_FRAMES);
    }
    close_desk(&a);
    close_desk(&b);
}

int main(int argc, char **argv) {
    long sessions = argc > 1 ? atol(argv[1]) : 200, k;
    for (k = 0; k < sessions; k++) {
        session((uint64_t)k + 1);
    }
    hold("most sections are silent", sounding >= 2 * sessions);
    hold("no section goes on after a voice has ended", ending > 0);
    largest();
    refused();
    printf("%ld sessions in sections as in single renders, %ld sections heard; %ld tests held\n", sessions, sounding, held);
    return 0;
}
