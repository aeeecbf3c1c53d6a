/* Sample memory in ranges: ranges [SESSIONS]. Sessions whose memory is cut into ranges give what they give with one range; a gap ends a
 * buffer; each reason for 13, in its sequence with 4, 5 and 7, changes nothing; no range is memory without bytes, and numbers left over
 * are not looked at. */
#include <stdio.h>
#include <stdlib.h>
#include <string.h>

#include "ranges.h"
#include "title.h"

#define FAR ((uint64_t)1 << 63)
#define LAST (~(uint64_t)0)

static long held = 0;

/* Counts something that must be. */
static void hold(const char *what, int is) {
    held++;
    if (!is) {
        fail("%s", what);
    }
}

/* One session on two desks: one has all of memory at once, the other in ranges that touch, cut anew for each render. Says whether it
 * is heard. */
static int session(uint64_t seed) {
    static const int formats[] = {2, 5, 6};
    static uint8_t memory[MEMORY], slice[MEMORY], reply[20000], title[400000];
    uint64_t numbers[NUMBERS_MOST];
    Counts c = below(&seed, 8) == 0 ? MIDDLE : SMALL;
    Sound sound;
    Desk a, b;
    int k, sounding = 0;
    c.samples = 1 + below(&seed, 256);
    c.voices = 1 + below(&seed, 4);
    sound.format = formats[below(&seed, 3)];
    sound.pitch = (float)(1 + below(&seed, 1600)) / 100.0f;
    sound.volume = 1.0f;
    a = open_desk(&c);
    b = open_desk(&c);
    put_memory(&seed, memory);
    put_title(title, &c, &sound, 1, &seed);
    hold("update", desk_update(&a, 0, title, title_size(&c), reply, sizeof reply).number == 0);
    hold("update", desk_update(&b, 0, title, title_size(&c), reply, sizeof reply).number == 0);
    for (k = 0; k < 8; k++) {
        float whole[512], cut[512];
        JeqllunaRender r = desk_render(&a, memory, MEMORY, whole, 512), s;
        size_t n = cut_memory(&seed, memory, slice, numbers), i;
        s = desk_render_ranges(&b, numbers, n, slice, MEMORY, cut, 512);
        hold("a render in ranges is refused", r.number == 0 && s.number == 0);
        hold("rounds in ranges", r.rounds == s.rounds);
        hold("frames in ranges", memcmp(whole, cut, 2 * c.samples * sizeof *whole) == 0);
        hold("the state after a render in ranges", same_desks(&a, &b));
        for (i = 0; i < 2 * c.samples; i++) {
            sounding |= whole[i] != 0.0f;
        }
    }
    close_desk(&a);
    close_desk(&b);
    return sounding;
}

/* Memory that lacks one byte: the voice's first read takes it, so that the buffer ends and nothing is heard. */
static void gap(void) {
    static uint8_t memory[MEMORY], reply[20000], title[200000];
    const Sound sound = {2, 1.0f, 1.0f};
    uint64_t numbers[2 * RANGE], seed = 4;
    float frames[32], silence[32] = {0};
    Desk d;
    uint32_t missing;
    put_memory(&seed, memory);
    put_title(title, &SMALL, &sound, 1, &seed);
    for (missing = 40; missing < 88; missing++) {
        int read = missing >= 48 && missing < 48 + 2 * 16;
        d = open_desk(&SMALL);
        hold("update", desk_update(&d, 0, title, title_size(&SMALL), reply, sizeof reply).number == 0);
        put_range(numbers, BASE, 0, missing);
        put_range(numbers + RANGE, BASE + missing + 1, missing + 1, MEMORY - missing - 1);
        hold("a render with a gap", desk_render_ranges(&d, numbers, 2 * RANGE, memory, MEMORY, frames, 32).number == 0);
        hold("frames with a gap", (memcmp(frames, silence, sizeof frames) == 0) == read);
        hold("update", desk_update(&d, 0, NULL, 0, reply, sizeof reply).number == 0);
        hold("a buffer with a gap", reply[0x40 + 4 * 0x10 + 8] == read); /* consumed: behind the header, four pools and played */
        close_desk(&d);
    }
}

/* A render with these numbers and this much room is answered so, and where it is refused nothing changes. */
static void answered(Desk *d, const uint64_t *numbers, size_t n, size_t floats, uint32_t number) {
    static const uint8_t memory[32] = {1};
    float frames[32], before[32];
    Desk copy = copy_desk(d);
    JeqllunaRender r;
    memset(frames, 0x5a, sizeof frames);
    memset(before, 0x5a, sizeof before);
    r = desk_render_ranges(d, numbers, n, memory, sizeof memory, frames, floats);
    held++;
    if (r.number != number) {
        fail("ranges: answered %u where %u was due", (unsigned)r.number, (unsigned)number);
    }
    if (number != 0) {
        hold("a refusal changes something", same_desks(d, &copy) && memcmp(frames, before, sizeof frames) == 0 && r.rounds == 0);
    }
    close_desk(&copy);
}

/* Each reason for 13 with what is just allowed, then the sequence 4, 13, 5, 7. */
static void refused(void) {
    static const struct {
        uint64_t numbers[2 * RANGE];
        size_t n;
        uint32_t number;
    } cases[] = {
        {{BASE, 0, 32}, 3, JEQLLUNA_OK}, /* a part outside memory, of 32 bytes */
        {{BASE, 0, 33}, 3, JEQLLUNA_RANGES},
        {{BASE, 1, 31}, 3, JEQLLUNA_OK},
        {{BASE, 1, 32}, 3, JEQLLUNA_RANGES},
        {{BASE, 32, 0}, 3, JEQLLUNA_OK},
        {{BASE, 33, 0}, 3, JEQLLUNA_RANGES},
        {{BASE, LAST, 1}, 3, JEQLLUNA_RANGES},
        {{BASE, 1, LAST}, 3, JEQLLUNA_RANGES},
        {{BASE, 0, 8, BASE + 8, 0, 8}, 6, JEQLLUNA_OK}, /* a base below the end before */
        {{BASE, 0, 8, BASE + 7, 8, 8}, 6, JEQLLUNA_RANGES},
        {{BASE, 0, 8, BASE, 8, 0}, 6, JEQLLUNA_RANGES},
        {{BASE, 0, 0, BASE, 0, 0}, 6, JEQLLUNA_OK},
        {{BASE + 8, 0, 8, BASE, 0, 8}, 6, JEQLLUNA_RANGES},
        {{LAST, 0, 1, 0, 0, 1}, 6, JEQLLUNA_RANGES}, /* an end of 2^64 */
        {{LAST, 0, 1, LAST, 0, 0}, 6, JEQLLUNA_RANGES},
        {{FAR - 32, 0, 32}, 3, JEQLLUNA_OK}, /* an end above 2^63 */
        {{FAR - 31, 0, 32}, 3, JEQLLUNA_MEMORY},
        {{FAR, 0, 0}, 3, JEQLLUNA_OK},
        {{FAR + 1, 0, 0}, 3, JEQLLUNA_MEMORY},
        {{LAST, 0, 1}, 3, JEQLLUNA_MEMORY},
        {{BASE, 0, 8, FAR - 8, 0, 8}, 6, JEQLLUNA_OK},
        {{BASE, 0, 8, FAR - 7, 0, 8}, 6, JEQLLUNA_MEMORY},
        {{FAR - 7, 0, 8, FAR, 0, 8}, 6, JEQLLUNA_RANGES}, /* two reasons */
        {{FAR - 7, 0, 8, FAR + 1, 25, 8}, 6, JEQLLUNA_RANGES},
        {{BASE, 0, 33, LAST, LAST, LAST}, 3, JEQLLUNA_RANGES}, /* numbers left over are no range */
        {{BASE, 0, 32, LAST, LAST, LAST}, 4, JEQLLUNA_OK},
        {{BASE, 0, 32, LAST, LAST, LAST}, 5, JEQLLUNA_OK},
        {{LAST, LAST, LAST}, 2, JEQLLUNA_OK},
        {{LAST, LAST, LAST}, 1, JEQLLUNA_OK},
    };
    uint64_t many[RANGE * 17];
    Desk d = open_desk(&SMALL);
    size_t k;
    for (k = 0; k < sizeof cases / sizeof *cases; k++) {
        answered(&d, cases[k].numbers, cases[k].n, 32, cases[k].number);
        answered(&d, cases[k].numbers, cases[k].n, 31, cases[k].number == JEQLLUNA_OK ? (uint32_t)JEQLLUNA_FRAMES : cases[k].number);
    }
    for (k = 0; k < 17; k++) {
        put_range(many + RANGE * k, BASE + 2 * k, k, 2);
    }
    answered(&d, many, RANGE * 16 + 2, 32, JEQLLUNA_OK);
    answered(&d, many, RANGE * 17, 32, JEQLLUNA_RANGES);
    put_range(many + RANGE * 16, FAR, 0, 1); /* 13 by their count comes before 5 of the last, and before 7 */
    answered(&d, many, RANGE * 17, 31, JEQLLUNA_RANGES);
    memset(d.words, 0x5a, d.n.words * sizeof *d.words);
    answered(&d, many, RANGE * 17, 31, JEQLLUNA_STATE);
    answered(&d, NULL, 0, 31, JEQLLUNA_STATE);
    close_desk(&d);
}

int main(int argc, char **argv) {
    long sessions = argc > 1 ? atol(argv[1]) : 200, heard = 0, k;
    for (k = 0; k < sessions; k++) {
        heard += session((uint64_t)k + 1);
    }
    hold("most sessions are silent", 2 * heard >= sessions);
    gap();
    refused();
    printf("%ld sessions in ranges as in one, %ld of them heard; %ld tests held\n", sessions, heard, held);
    return 0;
}
