/* A click track and a title in one update block: merge [DESKS]. Of two titles in which every voice plays, each voice is given to the title,
 * to the click or to none; the merged block has the bytes that it should have, and three renderers, updated with the title, the click and
 * the merged block, tell after each render that every voice is where it is in its own block. It fails where no voice of the click moved. */
#include <stdio.h>
#include <stdlib.h>
#include <string.h>

#include "jeqlluna_title.h"
#include "title.h"

#define REPLY 20000
#define VOICES 64 /* at most */
#define EACH (JEQLLUNA_CHANNEL_RESOURCE_SIZE + JEQLLUNA_VOICE_SIZE)

enum { TITLE, CLICK, NEITHER }; /* to which block a voice belongs */

static long calls = 0, moved = 0, silenced = 0;

static void hold(const char *what, int same) {
    calls++;
    if (!same) {
        fail("%s: not as it should be", what);
    }
}

/* Where the channel resources, the voices and the effects stand in a block that put_title makes. */
static size_t resources(const Counts *c) {
    return JEQLLUNA_UPDATE_HEADER_SIZE + (4 * c->voices + c->effects) * (size_t)JEQLLUNA_POOL_SIZE;
}

static size_t voices(const Counts *c) {
    return resources(c) + c->voices * (size_t)JEQLLUNA_CHANNEL_RESOURCE_SIZE;
}

static size_t effects(const Counts *c) {
    return voices(c) + c->voices * (size_t)JEQLLUNA_VOICE_SIZE;
}

/* Whether n bytes all have a value. */
static int all(const uint8_t *data, size_t n, uint8_t value) {
    while (n > 0 && data[n - 1] == value) {
        n--;
    }
    return n == 0;
}

/* A block in which the voices of one side are in use. Each plays one channel, that of its own number. */
static void put_side(uint8_t *to, const Counts *c, const uint8_t *owner, uint8_t side, int fresh, uint64_t *seed) {
    static const int formats[] = {2, 5, 6, 3};
    Sound sound;
    uint32_t v;
    sound.format = formats[below(seed, 4)];
    sound.pitch = (float)(1 + below(seed, 300)) / 100.0f;
    sound.volume = 0.5f;
    put_title(to, c, &sound, fresh, seed);
    for (v = 0; v < c->voices; v++) {
        to[voices(c) + v * (size_t)JEQLLUNA_VOICE_SIZE + JEQLLUNA_VOICE_IN_USE] = owner[v] == side;
    }
}

/* Holds a merged block to the two that it was made of. */
static void bytes(const uint8_t *both, const uint8_t *title, const uint8_t *click, const Counts *c, const uint8_t *owner) {
    uint32_t v;
    hold("header and pools", memcmp(both, title, resources(c)) == 0);
    hold("effects and what follows", memcmp(both + effects(c), title + effects(c), title_size(c) - effects(c)) == 0);
    for (v = 0; v < c->voices; v++) {
        size_t at = resources(c) + v * (size_t)JEQLLUNA_CHANNEL_RESOURCE_SIZE, record = voices(c) + v * (size_t)JEQLLUNA_VOICE_SIZE;
        const uint8_t *from = owner[v] == CLICK ? click : title;
        hold("resource", memcmp(both + at, from + at, JEQLLUNA_CHANNEL_RESOURCE_SIZE) == 0);
        hold("record", owner[v] == NEITHER ? all(both + record, JEQLLUNA_VOICE_SIZE, 0)
                                           : memcmp(both + record, from + record, JEQLLUNA_VOICE_SIZE) == 0);
    }
}

/* The merge of two blocks, to an output that is longer, just long enough and a byte too short. */
static void merged(uint8_t *both, const uint8_t *title, const uint8_t *click, const Counts *c, const uint8_t *owner) {
    uint8_t p[JEQLLUNA_PARAMETERS];
    size_t size = title_size(c), enough = size + EACH * (size_t)c->voices;
    JeqllunaMerged m;
    put_parameters(p, c);
    memset(both, 0x5a, enough);
    m = jeqlluna_merge(p, sizeof p, title, size, click, size, both, size - 1);
    hold("an output too short", m.number == JEQLLUNA_BLOCK && m.size == 0 && all(both, enough, 0x5a));
    m = jeqlluna_merge(p, sizeof p, title, size, click, size, both, enough);
    hold("merge", m.number == 0 && m.size == size && all(both + size, enough - size, 0x5a));
    bytes(both, title, click, c, owner);
    memset(both, 0x5a, size);
    m = jeqlluna_merge(p, sizeof p, title, size, click, size, both, size);
    hold("merge", m.number == 0 && m.size == size);
    bytes(both, title, click, c, owner);
}

/* A voice that is in use in both, and one that names a channel of the other block. */
static void refused(uint8_t *both, const uint8_t *title, uint8_t *click, const Counts *c, const uint8_t *owner) {
    uint8_t p[JEQLLUNA_PARAMETERS];
    size_t size = title_size(c);
    uint32_t v, w;
    put_parameters(p, c);
    for (v = 0; v < c->voices; v++) {
        uint8_t *record = click + voices(c) + v * (size_t)JEQLLUNA_VOICE_SIZE;
        if (owner[v] == TITLE) {
            record[JEQLLUNA_VOICE_IN_USE] = 1;
            hold("16", jeqlluna_merge(p, sizeof p, title, size, click, size, both, 0).number == JEQLLUNA_VOICES);
            record[JEQLLUNA_VOICE_IN_USE] = 0;
        }
        for (w = 0; w < c->voices && owner[v] == CLICK; w++) {
            uint32_t number = owner[w] == TITLE ? (uint32_t)JEQLLUNA_CHANNELS : (uint32_t)JEQLLUNA_BLOCK;
            /* Below 0 is the first, past the last is the last. */
            put_u32(record + JEQLLUNA_VOICE_CHANNEL_RESOURCES, w == 0 ? 0xffffffff : w + 1 == c->voices ? 0x7fffffff : w);
            hold("17 or 18", jeqlluna_merge(p, sizeof p, title, size, click, size, both, 0).number == number);
        }
        put_u32(record + JEQLLUNA_VOICE_CHANNEL_RESOURCES, v);
    }
}

/* Asks for the positions: every voice is where it is in its own block. */
static void positions(Desk desks[3], const Counts *c, const uint8_t *owner) {
    static uint8_t replies[3][REPLY];
    size_t at = JEQLLUNA_REPLY_HEADER_SIZE + (4 * c->voices + c->effects) * (size_t)JEQLLUNA_REPLY_POOL_SIZE;
    uint32_t v;
    for (v = 0; v < 3; v++) {
        hold("positions", desk_update(&desks[v], 0, NULL, 0, replies[v], REPLY).number == 0);
    }
    for (v = 0; v < c->voices; v++, at += JEQLLUNA_REPLY_VOICE_SIZE) {
        const uint8_t *position = replies[NEITHER] + at;
        if (owner[v] == NEITHER) {
            hold("a voice out of use", all(position, JEQLLUNA_REPLY_VOICE_SIZE, 0));
            silenced++;
        } else {
            hold("position", memcmp(position, replies[owner[v]] + at, JEQLLUNA_REPLY_VOICE_SIZE) == 0);
            moved += owner[v] == CLICK && !all(position, JEQLLUNA_REPLY_VOICE_SIZE, 0);
        }
    }
}

/* Three renderers, of which the third gets the merged block. The second update goes on with the voices of the first; before the third they
 * change hands. */
static void session(const Counts *c, uint64_t seed) {
    static uint8_t memory[MEMORY], reply[REPLY];
    static float frames[512];
    size_t size = title_size(c);
    uint8_t owner[VOICES], *blocks[3];
    Desk desks[3];
    uint32_t k, v, turn;
    put_memory(&seed, memory);
    for (k = 0; k < 3; k++) {
        blocks[k] = (uint8_t *)room(size + EACH * (size_t)c->voices);
        desks[k] = open_desk(c);
    }
    for (turn = 0; turn < 3; turn++) {
        for (v = 0; v < c->voices && turn != 1; v++) {
            owner[v] = (uint8_t)below(&seed, 3);
        }
        for (k = TITLE; k <= CLICK; k++) {
            put_side(blocks[k], c, owner, (uint8_t)k, turn != 1, &seed);
        }
        merged(blocks[NEITHER], blocks[TITLE], blocks[CLICK], c, owner);
        for (k = 0; k < 3; k++) {
            hold("update", desk_update(&desks[k], 0, blocks[k], size, reply, REPLY).number == 0);
        }
        positions(desks, c, owner);
        for (v = 0; v < 3; v++) {
            uint32_t rounds[3];
            for (k = 0; k < 3; k++) {
                JeqllunaRender r = desk_render(&desks[k], memory, MEMORY, frames, 512);
                hold("render", r.number == 0);
                rounds[k] = r.rounds;
            }
            hold("rounds", rounds[NEITHER] == rounds[TITLE] + rounds[CLICK]);
            positions(desks, c, owner);
        }
        refused(blocks[NEITHER], blocks[TITLE], blocks[CLICK], c, owner);
    }
    for (k = 0; k < 3; k++) {
        close_desk(&desks[k]);
        free(blocks[k]);
    }
}

/* A title of six bytes: its behaviour section has the size that is written, and no byte. An empty click. */
static void by_hand(void) {
    static const uint8_t title[6] = {1, 2, 3, 4, 3, 0};
    uint8_t p[JEQLLUNA_PARAMETERS] = {0}, output[0x44 + EACH], expected[0x43 + EACH] = {0};
    JeqllunaMerged m;
    p[0x10] = 1;
    memset(output, 0x5a, sizeof output);
    memcpy(expected, title, sizeof title);
    put_u32(expected + JEQLLUNA_UPDATE_HEADER_VOICES_SIZE, JEQLLUNA_VOICE_SIZE);
    put_u32(expected + JEQLLUNA_UPDATE_HEADER_CHANNEL_RESOURCES_SIZE, JEQLLUNA_CHANNEL_RESOURCE_SIZE);
    m = jeqlluna_merge(p, sizeof p, title, sizeof title, NULL, 0, output, sizeof output);
    hold("by hand", m.number == 0 && m.size == sizeof expected && memcmp(output, expected, sizeof expected) == 0);
    hold("by hand", output[sizeof expected] == 0x5a);
}

int main(int argc, char **argv) {
    long desks = argc > 1 ? atol(argv[1]) : 400, k;
    uint64_t seed = 17;
    by_hand();
    session(&SMALL, 1);
    session(&MIDDLE, 2);
    session(&LARGEST, 3);
    for (k = 0; k < desks; k++) {
        Counts c = MIDDLE;
        c.samples = 1 + below(&seed, 256);
        c.voices = below(&seed, below(&seed, 4) != 0 ? 7 : 65);
        c.effects = below(&seed, 9);
        c.sub_mixes = below(&seed, 3);
        c.revision = (int)below(&seed, 10);
        session(&c, seed);
    }
    printf("%ld comparisons of merged blocks and positions; %ld of the click not 0, %ld out of use\n", calls, moved, silenced);
    if (moved == 0 || silenced == 0) {
        fail("no voice of the click that moved, or none out of use");
    }
    return 0;
}
