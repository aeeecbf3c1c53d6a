/* Opens a renderer with 2 samples, renders, updates, and prints what the session program prints for the same calls. C99 and C++98.
 *
 *     tools/build cabi && cc -std=c99 -Iinclude -o target/example include/example.c target/staticlib/libcabi.a && target/example */
#include <stdio.h>
#include <stdlib.h>
#include <string.h>

#include "jeqlluna.h"

#define SAMPLES 2

static void check(uint32_t number) {
    if (number != JEQLLUNA_OK) {
        printf("refused %u: %s\n", (unsigned)number, jeqlluna_refusal(number));
        exit(1);
    }
}

/* Room for n elements; NULL is as good as any pointer where there are none. */
static void *room(size_t n, size_t size) {
    void *p = n == 0 ? NULL : calloc(n, size);
    if (n != 0 && p == NULL) {
        exit(2);
    }
    return p;
}

static void print_frames(const float *frames) {
    int k;
    printf("frames %d", SAMPLES);
    for (k = 0; k < 2 * SAMPLES; k++) {
        uint32_t bits;
        memcpy(&bits, &frames[k], sizeof bits);
        printf(" %08x", (unsigned)bits);
    }
    printf("\n");
}

static void print_reply(const uint8_t *reply, size_t size) {
    size_t k, b;
    printf("reply %lu", (unsigned long)size);
    for (k = 0; k < size; k += 4) {
        uint32_t word = 0;
        for (b = 0; b < 4 && k + b < size; b++) {
            word |= (uint32_t)reply[k + b] << 8 * b;
        }
        if (word != 0) {
            printf(" %04lx:%08x", (unsigned long)k, (unsigned)word);
        }
    }
    printf("\n");
}

int main(void) {
    uint8_t parameters[JEQLLUNA_PARAMETERS] = {0}, *reply;
    parameters[0x04] = SAMPLES;
    memcpy(parameters + 0x30, "REV5", 4);

    JeqllunaLengths n = jeqlluna_lengths(parameters, sizeof parameters);
    check(n.number);
    uint32_t *words = (uint32_t *)room(n.words, sizeof *words);
    uint64_t *longs = (uint64_t *)room(n.longs, sizeof *longs);
    float *floats = (float *)room(n.floats, sizeof *floats);
    uint16_t *contexts = (uint16_t *)room(n.contexts, sizeof *contexts);
    float *history = (float *)room(n.history, sizeof *history);
    check(jeqlluna_open(
        parameters, sizeof parameters, words, n.words, longs, n.longs, floats, n.floats, contexts, n.contexts, history, n.history));

    float frames[2 * SAMPLES];
    JeqllunaRender r = jeqlluna_render(
        words, n.words, longs, n.longs, floats, n.floats, contexts, n.contexts, history, n.history, NULL, 0, NULL, 0, frames, 2 * SAMPLES);
    check(r.number);
    print_frames(frames);

    JeqllunaLength l = jeqlluna_reply_length(parameters, sizeof parameters, 272);
    check(l.number);
    reply = (uint8_t *)room(l.size, 1);
    JeqllunaUpdate u = jeqlluna_update(
        words, n.words, longs, n.longs, floats, n.floats, contexts, n.contexts, history, n.history, 272, NULL, 0, reply, l.size);
    check(u.number);
    print_reply(reply, u.size);

    free(words), free(longs), free(floats), free(contexts), free(history), free(reply);
    return 0;
}
