/* Samples encoded and decoded again: encode [CALLS]. What the bytes decode to is as far from the samples as the error says, and the decode
 * leaves the context that the encode left. Samples that a decoder made are encoded without error. A recording in two calls has the bytes
 * of one. Three frames are worked out by hand. */
#include <stdio.h>
#include <stdlib.h>
#include <string.h>

#include "desk.h"

#define MOST 70  /* samples */
#define BYTES 40 /* which they take */

static long calls = 0;

static void hold(const char *what, int same) {
    calls++;
    if (!same) {
        fail("%s: not as it should be", what);
    }
}

static int same_contexts(JeqllunaContext a, JeqllunaContext b) {
    return a.pred_scale == b.pred_scale && a.history0 == b.history0 && a.history1 == b.history1;
}

/* Frames whose bytes are known: two samples that scale 0 has, both ends of 16 bits, and a sample that is the prediction. */
static void by_hand(void) {
    static const struct {
        int16_t pair, history, samples[2];
        size_t count;
        uint8_t bytes[2];
    } frames[] = {
        {0, 0, {1, -1}, 2, {0x00, 0x1f}},
        {0, 0, {32767, -32768}, 2, {0x0d, 0x48}},
        {2048, 100, {100, 0}, 1, {0x00, 0x00}},
    };
    size_t k;
    for (k = 0; k < sizeof frames / sizeof *frames; k++) {
        JeqllunaContext context = {0x7f, 0, 0};
        uint8_t output[3] = {0x5a, 0x5a, 0x5a};
        JeqllunaEncoded e;
        context.history0 = frames[k].history;
        e = jeqlluna_encode_adpcm(frames[k].samples, frames[k].count, &frames[k].pair, 1, context, output, 3);
        hold("by hand", e.number == 0 && e.size == 2 && e.error == 0 && output[2] == 0x5a);
        hold("by hand", memcmp(output, frames[k].bytes, 2) == 0 && e.context.pred_scale == frames[k].bytes[0]);
        hold("by hand", e.context.history0 == frames[k].samples[frames[k].count - 1]);
    }
}

/* Encodes samples and decodes the bytes. Gives the error. */
static uint64_t round_trip(
    const int16_t *samples, size_t n, const int16_t *pairs, size_t m, JeqllunaContext context, uint8_t output[BYTES]) {
    float decoded[MOST];
    JeqllunaEncoded e;
    JeqllunaDecoded d;
    uint64_t error = 0;
    size_t k;
    memset(output, 0x5a, BYTES);
    e = jeqlluna_encode_adpcm(samples, n, pairs, m, context, output, BYTES);
    hold("encode", e.number == 0 && e.size == n / 14 * 8 + (n % 14 > 0 ? 1 + (n % 14 + 1) / 2 : 0));
    for (k = e.size; k < BYTES; k++) {
        hold("bytes beyond", output[k] == 0x5a);
    }
    hold("unused nibble", n % 2 == 0 || (output[e.size - 1] & 15) == 0);
    d = jeqlluna_decode_adpcm(output, e.size, 0, n, pairs, m, context, decoded, MOST);
    hold("decode", d.number == 0 && d.done == n && same_contexts(d.context, e.context));
    for (k = 0; k < n; k++) {
        int64_t off = (int64_t)decoded[k] - samples[k];
        error += (uint64_t)(off * off);
    }
    hold("error", error == e.error);
    return e.error;
}

/* The same recording in two calls, the first of so many frames. */
static void in_parts(
    const int16_t *samples, size_t n, size_t frames, const int16_t *pairs, JeqllunaContext context, const uint8_t expected[BYTES]) {
    uint8_t output[BYTES];
    JeqllunaEncoded a = jeqlluna_encode_adpcm(samples, 14 * frames, pairs, 16, context, output, BYTES), b;
    b = jeqlluna_encode_adpcm(samples + 14 * frames, n - 14 * frames, pairs, 16, a.context, output + 8 * frames, BYTES - 8 * frames);
    hold("two calls", a.number == 0 && b.number == 0 && memcmp(output, expected, a.size + b.size) == 0);
}

/* What a decoder makes of any bytes, with any predictors and scales, is encoded without error. */
static void made(uint64_t *seed, const int16_t *pairs, JeqllunaContext context, size_t n) {
    uint8_t data[BYTES], output[BYTES];
    float decoded[MOST];
    int16_t samples[MOST];
    size_t k;
    put_random(seed, data, BYTES);
    for (k = 0; k < BYTES; k += 8) {
        data[k] &= 0x7f;
    }
    hold("decode", jeqlluna_decode_adpcm(data, BYTES, 0, n, pairs, 16, context, decoded, MOST).done == n);
    for (k = 0; k < n; k++) {
        samples[k] = (int16_t)decoded[k];
    }
    hold("what a decoder made", round_trip(samples, n, pairs, 16, context, output) == 0);
}

int main(int argc, char **argv) {
    long count = argc > 1 ? atol(argv[1]) : 2000, k;
    uint64_t seed = 5;
    by_hand();
    for (k = 0; k < count; k++) {
        int16_t samples[MOST], pairs[20];
        uint8_t output[BYTES];
        JeqllunaContext context;
        size_t n = below(&seed, MOST + 1), i;
        put_random(&seed, (uint8_t *)samples, sizeof samples);
        put_random(&seed, (uint8_t *)pairs, sizeof pairs);
        put_random(&seed, (uint8_t *)&context, sizeof context);
        if (k % 2 == 0) { /* softer, with predictions that stay inside 16 bits */
            for (i = 0; i < MOST; i++) {
                samples[i] = (int16_t)(samples[i] / 256);
            }
            for (i = 0; i < 20; i++) {
                pairs[i] = (int16_t)(pairs[i] / 32);
            }
        }
        round_trip(samples, n, pairs, below(&seed, 21), context, output);
        round_trip(samples, n, pairs, 16, context, output);
        in_parts(samples, n, below(&seed, (uint32_t)(n / 14) + 1), pairs, context, output);
        made(&seed, pairs, context, n);
    }
    printf("%ld comparisons of samples encoded and decoded\n", calls);
    return 0;
}
