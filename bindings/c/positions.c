/* Updates without input, NULL and length 0: positions [DESKS]. The five slices stay as they are to the bit, and the reply tells how far
 * each voice has played, worked out here from what the title said; the rest of it is as in the reply to an input of one byte. Such inputs,
 * of 1 to 63 bytes, put every voice out of use. It fails where no position was told that is not 0, or no buffer that has ended. */
#include <stdio.h>
#include <stdlib.h>
#include <string.h>

#include "jeqlluna_title.h"
#include "title.h"

#define REPLY 20000
#define EXPECTED 9000

static long asked = 0, moved = 0, ended = 0, silenced = 0;

static uint64_t number(const uint8_t *at, int bytes) {
    uint64_t n = 0;
    while (bytes-- > 0) {
        n = n << 8 | at[bytes];
    }
    return n;
}

static void hold(const char *what, int same) {
    if (!same) {
        fail("an update without input: %s", what);
    }
}

/* The record of voice v's one buffer in a title. */
static uint8_t *wave(uint8_t *title, const Counts *c, uint32_t v) {
    size_t pools = (4 * c->voices + c->effects) * (size_t)JEQLLUNA_POOL_SIZE;
    size_t resources = c->voices * (size_t)JEQLLUNA_CHANNEL_RESOURCE_SIZE;
    return title + JEQLLUNA_UPDATE_HEADER_SIZE + pools + resources + v * (size_t)JEQLLUNA_VOICE_SIZE + JEQLLUNA_VOICE_WAVES;
}

/* A title whose voices play at pitch 1; the buffer of every second one does not loop. */
static void put_clips(uint8_t *title, const Counts *c, int fresh, uint64_t *seed) {
    const Sound sound = {2, 1.0f, 0.5f};
    uint32_t v;
    put_title(title, c, &sound, fresh, seed);
    for (v = 1; v < c->voices; v += 2) {
        wave(title, c, v)[JEQLLUNA_WAVE_LOOPING] = 0;
    }
}

/* Voice v's position after so many samples, by its record: at pitch 1 each render takes as many samples as it makes frames. */
static void position(uint8_t *title, const Counts *c, uint32_t v, uint64_t samples, uint64_t *played, uint64_t *consumed) {
    const uint8_t *w = wave(title, c, v);
    uint64_t length = number(w + JEQLLUNA_WAVE_END, 4) - number(w + JEQLLUNA_WAVE_START, 4);
    *consumed = w[JEQLLUNA_WAVE_LOOPING] == 0 && samples >= length;
    *played = *consumed != 0 ? length : samples;
}

/* Asks by an update without input; each voice has taken so many samples, or is fresh or out of use where they are 0. */
static void ask(Desk *d, const Counts *c, uint8_t *title, uint64_t samples) {
    static uint8_t reply[REPLY], other[REPLY];
    const uint8_t byte[1] = {0};
    size_t at = JEQLLUNA_REPLY_HEADER_SIZE + (4 * c->voices + c->effects) * (size_t)JEQLLUNA_REPLY_POOL_SIZE;
    size_t voices = c->voices * (size_t)JEQLLUNA_REPLY_VOICE_SIZE;
    Desk before = copy_desk(d);
    JeqllunaUpdate a, b;
    uint32_t v;
    memset(reply, 0x5a, sizeof reply);
    memset(other, 0x5a, sizeof other);
    a = desk_update(d, EXPECTED, NULL, 0, reply, sizeof reply);
    hold("it is refused", a.number == 0);
    hold("a slice changes", same_desks(d, &before));
    hold("a short reply", desk_update(d, EXPECTED, NULL, 0, other, a.size - 1).number == JEQLLUNA_REPLY);
    hold("a slice changes by a refusal", same_desks(d, &before));
    for (v = 0; v < c->voices; v++) {
        const uint8_t *told = reply + at + v * (size_t)JEQLLUNA_REPLY_VOICE_SIZE;
        uint64_t played, consumed;
        position(title, c, v, samples, &played, &consumed);
        hold("played", number(told + JEQLLUNA_REPLY_VOICE_PLAYED, 8) == played);
        hold("consumed", number(told + JEQLLUNA_REPLY_VOICE_CONSUMED, 4) == consumed);
        asked++;
        moved += played != 0;
        ended += consumed != 0;
    }
    b = desk_update(&before, EXPECTED, byte, 1, other, sizeof other);
    hold("the reply's length", a.size == b.size && b.number == 0);
    hold("the reply before the voices", memcmp(reply, other, at) == 0);
    hold("the reply behind the voices", memcmp(reply + at + voices, other + at + voices, sizeof reply - at - voices) == 0);
    close_desk(&before);
}

/* A session: fresh, playing with an update in between, out of use. */
static void session(const Counts *c, uint64_t seed) {
    static uint8_t memory[MEMORY], reply[REPLY], bytes[63];
    static float frames[512];
    size_t size = title_size(c);
    uint8_t *title = (uint8_t *)room(size);
    Desk d = open_desk(c);
    uint32_t k, n = 1 + below(&seed, 63);
    put_memory(&seed, memory);
    put_clips(title, c, 1, &seed);
    ask(&d, c, title, 0);
    hold("the title", desk_update(&d, 0, title, size, reply, sizeof reply).number == 0);
    ask(&d, c, title, 0);
    for (k = 1; k <= 9; k++) {
        hold("a render", desk_render(&d, memory, MEMORY, frames, 512).number == 0);
        ask(&d, c, title, (uint64_t)k * c->samples);
        if (k % 3 == 0) {
            put_clips(title, c, 0, &seed);
            hold("the title", desk_update(&d, 0, title, size, reply, sizeof reply).number == 0);
            ask(&d, c, title, (uint64_t)k * c->samples);
        }
    }
    put_random(&seed, bytes, sizeof bytes);
    hold("a short input", desk_update(&d, 0, bytes, n, reply, sizeof reply).number == 0);
    ask(&d, c, title, 0);
    hold("a render", desk_render(&d, memory, MEMORY, frames, 512).number == 0);
    for (k = 0; k < 2 * c->samples; k++) {
        hold("a voice out of use is heard", frames[k] == 0.0f);
    }
    silenced++;
    close_desk(&d);
    free(title);
}

int main(int argc, char **argv) {
    long desks = argc > 1 ? atol(argv[1]) : 400, k;
    uint64_t seed = 13;
    session(&SMALL, 1);
    session(&MIDDLE, 2);
    session(&LARGEST, 3);
    for (k = 0; k < desks; k++) {
        Counts c = MIDDLE;
        c.samples = 1 + below(&seed, 256);
        c.voices = below(&seed, below(&seed, 2) == 0 ? 5 : 65);
        c.effects = below(&seed, 65);
        c.sinks = below(&seed, 9);
        c.revision = (int)below(&seed, 10);
        session(&c, seed);
    }
    printf("%ld positions without input, %ld not 0, %ld with a buffer that has ended; %ld desks\n", asked, moved, ended, silenced);
    if (moved == 0 || ended == 0) {
        fail("no position that is not 0, or no buffer that has ended");
    }
    return 0;
}
