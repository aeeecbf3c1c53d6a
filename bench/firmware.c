/* Times of single calls at the largest counts, for docs/FIRMWARE.md. bench/firmware builds and runs it.
 * Each desk is made by an open and one update; then the same render is timed many times: least, median and largest time. One is also timed
 * after updates that pile flush counts up. */
#define _POSIX_C_SOURCE 199309L
#include <stdio.h>
#include <stdlib.h>
#include <string.h>
#include <time.h>

#include "jeqlluna.h"
#include "jeqlluna_title.h"

enum { BASE = 0x10000, MEMORY = 1 << 20, RENDERS = 501, PILES = 11, FLUSH = 255 };

/* A desk: how many voices of how many channels, how they play, and how they are mixed. */
typedef struct {
    const char *name;
    uint32_t samples, voices, channels, sub_mixes, mix_buffers, buffers; /* buffers: of each mix */
    uint32_t format, rate, looped; /* looped: samples of the loop */
    float volume, gain;
    int flushes; /* updates of queue count 0, each of which flushes FLUSH or 1 of each voice, before one more render */
    int cut;     /* memory is in two ranges that touch, apart in the slice, inside a frame in the middle of the loop, of PCM16 */
} Desk;

static void put16(uint8_t *at, uint32_t v) { at[0] = (uint8_t)v, at[1] = (uint8_t)(v >> 8); }
static void put32(uint8_t *at, uint32_t v) { put16(at, v), put16(at + 2, v >> 16); }
static void put_float(uint8_t *at, float x) {
    uint32_t bits;
    memcpy(&bits, &x, sizeof bits);
    put32(at, bits);
}

static void *room(size_t n) {
    void *p = calloc(n + 1, 1);
    if (p == NULL) exit(2);
    return p;
}

static void check(uint32_t number, const char *what) {
    if (number != 0) {
        printf("%s: refused %u\n", what, (unsigned)number);
        exit(1);
    }
}

static void put_voice(uint8_t *v, const Desk *d, uint32_t k) {
    v[JEQLLUNA_VOICE_IS_NEW] = v[JEQLLUNA_VOICE_IN_USE] = 1;
    v[JEQLLUNA_VOICE_FORMAT] = (uint8_t)d->format;
    put32(v + JEQLLUNA_VOICE_SAMPLE_RATE, d->rate);
    put32(v + JEQLLUNA_VOICE_CHANNELS, d->channels);
    put_float(v + JEQLLUNA_VOICE_PITCH, 1.0f);
    put_float(v + JEQLLUNA_VOICE_VOLUME, d->volume);
    put32(v + JEQLLUNA_VOICE_QUEUED, 1);
    put32(v + JEQLLUNA_VOICE_COEFFICIENTS, BASE);
    put32(v + JEQLLUNA_VOICE_MIX, k % (d->sub_mixes + 1));
    put32(v + JEQLLUNA_VOICE_SPLITTER, JEQLLUNA_VOICE_SPLITTER_NONE);
    for (uint32_t c = 0; c < 6; c++) put32(v + JEQLLUNA_VOICE_CHANNEL_RESOURCES + 4 * c, (k + c) % d->voices);
    for (uint32_t slot = 1; slot < 4; slot++) v[JEQLLUNA_VOICE_WAVES + slot * JEQLLUNA_WAVE_SIZE + JEQLLUNA_WAVE_SENT_BEFORE] = 1;
    uint8_t *w = v + JEQLLUNA_VOICE_WAVES;
    put32(w + JEQLLUNA_WAVE_ADDRESS, BASE + 64);
    put32(w + JEQLLUNA_WAVE_DATA_SIZE, MEMORY - 64);
    put32(w + JEQLLUNA_WAVE_END, d->looped);
    w[JEQLLUNA_WAVE_LOOPING] = 1;
    put32(w + JEQLLUNA_WAVE_LOOP_COUNT, 0xffffffff);
}

/* Makes the records those of voices that go on, with this queue count and a flush of so many. */
static void put_flush(uint8_t *records, const Desk *d, uint32_t queued, uint8_t count) {
    for (uint8_t *v = records; v < records + d->voices * JEQLLUNA_VOICE_SIZE; v += JEQLLUNA_VOICE_SIZE) {
        put32(v + JEQLLUNA_VOICE_QUEUED, queued);
        v[JEQLLUNA_VOICE_FLUSH] = count, v[JEQLLUNA_VOICE_IS_NEW] = 0;
    }
}

static void put_mix(uint8_t *m, const Desk *d, uint32_t k) {
    m[JEQLLUNA_MIX_IN_USE] = 1;
    put32(m + JEQLLUNA_MIX_ID, k);
    put_float(m + JEQLLUNA_MIX_VOLUME, 0.9f);
    put32(m + JEQLLUNA_MIX_BUFFER_COUNT, d->buffers);
    for (int g = 0; g < 576; g++) put_float(m + JEQLLUNA_MIX_GAINS + 4 * g, d->gain);
    put32(m + JEQLLUNA_MIX_DESTINATION, k == 0 ? JEQLLUNA_MIX_DESTINATION_NONE : k - 1); /* a chain: the longest way */
    put32(m + JEQLLUNA_MIX_SPLITTER, JEQLLUNA_MIX_SPLITTER_NONE);
}

static int by_size(const void *a, const void *b) {
    double x = *(const double *)a, y = *(const double *)b;
    return (x > y) - (x < y);
}

static double now(void) {
    struct timespec t;
    clock_gettime(CLOCK_MONOTONIC, &t);
    return (double)t.tv_sec * 1e6 + (double)t.tv_nsec / 1e3;
}

#define STATE words, n.words, longs, n.longs, floats, n.floats, contexts, n.contexts, history, n.history

static void run(const Desk *d, const uint8_t *memory) {
    uint8_t parameters[JEQLLUNA_PARAMETERS] = {0};
    put32(parameters + JEQLLUNA_PARAMETERS_SAMPLE_RATE, 48000);
    put32(parameters + JEQLLUNA_PARAMETERS_SAMPLE_COUNT, d->samples);
    put32(parameters + JEQLLUNA_PARAMETERS_MIX_BUFFERS, d->mix_buffers);
    put32(parameters + JEQLLUNA_PARAMETERS_SUB_MIXES, d->sub_mixes);
    put32(parameters + JEQLLUNA_PARAMETERS_VOICES, d->voices);
    put32(parameters + JEQLLUNA_PARAMETERS_SINKS, 1);
    memcpy(parameters + JEQLLUNA_PARAMETERS_REVISION, "REV8", 4);
    JeqllunaLengths n = jeqlluna_lengths(parameters, sizeof parameters);
    check(n.number, d->name);
    uint32_t *words = room(4 * n.words);
    uint64_t *longs = room(8 * n.longs);
    float *floats = room(4 * n.floats), *history = room(4 * n.history);
    uint16_t *contexts = room(2 * n.contexts);
    check(jeqlluna_open(parameters, sizeof parameters, STATE), d->name);

    size_t channels = d->voices * JEQLLUNA_CHANNEL_RESOURCE_SIZE, voices = d->voices * JEQLLUNA_VOICE_SIZE;
    size_t mixes = JEQLLUNA_MIX_HEADER_SIZE + (d->sub_mixes + 1) * JEQLLUNA_MIX_SIZE;
    size_t size = JEQLLUNA_UPDATE_HEADER_SIZE + channels + voices + mixes + JEQLLUNA_SINK_SIZE;
    uint8_t *input = room(size), *at = input + JEQLLUNA_UPDATE_HEADER_SIZE;
    put32(input + JEQLLUNA_UPDATE_HEADER_CHANNEL_RESOURCES_SIZE, (uint32_t)channels);
    put32(input + JEQLLUNA_UPDATE_HEADER_VOICES_SIZE, (uint32_t)voices);
    put32(input + JEQLLUNA_UPDATE_HEADER_MIXES_SIZE, (uint32_t)mixes);
    put32(input + JEQLLUNA_UPDATE_HEADER_SINKS_SIZE, JEQLLUNA_SINK_SIZE);
    for (uint32_t k = 0; k < d->voices; k++, at += JEQLLUNA_CHANNEL_RESOURCE_SIZE)
        for (int g = 0; g < 24; g++) put_float(at + JEQLLUNA_CHANNEL_RESOURCE_GAINS + 4 * g, d->gain);
    for (uint32_t k = 0; k < d->voices; k++, at += JEQLLUNA_VOICE_SIZE) put_voice(at, d, k);
    put32(at + JEQLLUNA_MIX_HEADER_COUNT, d->sub_mixes + 1);
    at += JEQLLUNA_MIX_HEADER_SIZE;
    for (uint32_t k = 0; k <= d->sub_mixes; k++, at += JEQLLUNA_MIX_SIZE) put_mix(at, d, k);
    at[JEQLLUNA_SINK_KIND] = JEQLLUNA_SINK_KIND_DEVICE;
    at[JEQLLUNA_SINK_IN_USE] = 1;
    at[JEQLLUNA_SINK_INPUT_COUNT] = 6;
    for (uint8_t k = 0; k < 6; k++) at[JEQLLUNA_SINK_INPUTS + k] = k;

    uint8_t *reply = room(8192);
    double t = now();
    JeqllunaUpdate u = jeqlluna_update(STATE, 0, input, size, reply, 8192);
    double update = now() - t;
    check(u.number, d->name);
    uint64_t ranges[6] = {BASE, 0, MEMORY}, place = 64 + d->looped * d->channels + 1;
    size_t numbers = 3;
    if (d->cut) {
        ranges[2] = place, ranges[3] = BASE + place, ranges[4] = MEMORY / 2, ranges[5] = MEMORY / 2;
        numbers = 6;
    }
    static double times[RENDERS];
    float frames[512];
    uint32_t rounds = 0;
    for (int k = 0; k < RENDERS; k++) {
        t = now();
        JeqllunaRender r = jeqlluna_render(STATE, ranges, numbers, memory, MEMORY, frames, 512);
        times[k] = now() - t;
        check(r.number, d->name);
        rounds = r.rounds;
    }
    qsort(times, RENDERS, sizeof *times, by_size);
    double median = times[RENDERS / 2], plays = d->samples / 0.048;
    printf("%s: render %.0f, %.0f, %.0f us (least, median, largest of %d)", d->name, times[0], median, times[RENDERS - 1], RENDERS);
    printf(", %.1f %% of the %.0f us that it plays; %u rounds; update %.0f us\n", 100 * median / plays, plays, (unsigned)rounds, update);
    if (d->flushes > 0) {
        static const uint8_t counts[] = {FLUSH, 1};
        double after[2][PILES];
        uint8_t *records = input + JEQLLUNA_UPDATE_HEADER_SIZE + channels;
        for (int p = 0; p < 2 * PILES; p++) {
            put_flush(records, d, 0, counts[p % 2]);
            for (int k = 0; k < d->flushes; k++) check(jeqlluna_update(STATE, 0, input, size, reply, 8192).number, d->name);
            put_flush(records, d, 1, 0);
            check(jeqlluna_update(STATE, 0, input, size, reply, 8192).number, d->name);
            t = now();
            JeqllunaRender r = jeqlluna_render(STATE, ranges, numbers, memory, MEMORY, frames, 512);
            after[p % 2][p / 2] = now() - t;
            check(r.number, d->name);
        }
        for (int k = 0; k < 2; k++) {
            qsort(after[k], PILES, sizeof **after, by_size);
            printf("the same after %d updates that flush %d of each voice, together %d", d->flushes, counts[k], d->flushes * counts[k]);
            printf(": render %.0f us (median of %d)\n", after[k][PILES / 2], PILES);
        }
    }
    free(words), free(longs), free(floats), free(contexts), free(history), free(input), free(reply);
}

int main(void) {
    enum { PCM16 = JEQLLUNA_VOICE_FORMAT_PCM_INT16, ADPCM = JEQLLUNA_VOICE_FORMAT_ADPCM };
    static const Desk desks[] = {
        {"one voice, PCM16, 240 samples", 240, 1, 1, 0, 6, 6, PCM16, 48000, 40000, 1.0f, 0.5f, 0, 0},
        {"24 voices, PCM16, 240 samples", 240, 24, 1, 4, 10, 2, PCM16, 48000, 40000, 1.0f, 0.5f, 0, 0},
        {"largest counts, PCM16 in step", 256, 64, 6, 31, 96, 3, PCM16, 48000, 40000, 0.5f, 0.5f, 3922, 0},
        {"largest counts, ratio 16", 256, 64, 6, 31, 96, 3, PCM16, 768000, 40000, 0.5f, 0.5f, 0, 0},
        {"largest counts, ADPCM at 44100 Hz", 256, 64, 6, 31, 96, 3, ADPCM, 44100, 40000, 0.5f, 0.5f, 0, 0},
        {"largest counts, 24 buffers a mix", 256, 64, 6, 3, 96, 24, PCM16, 44100, 40000, 0.5f, 0.5f, 0, 0},
        {"the same, subnormal products", 256, 64, 6, 3, 96, 24, PCM16, 44100, 40000, 0.5f, 1e-42f, 0, 0},
        {"largest counts, 64 rounds a voice", 256, 64, 6, 31, 96, 3, PCM16, 48000, 1, 0.5f, 0.5f, 0, 0},
        {"largest counts, PCM16 in step, each read across two ranges", 256, 64, 6, 31, 96, 3, PCM16, 48000, 256, 0.5f, 0.5f, 0, 1},
        {"largest counts, ratio 16, each read across two ranges", 256, 64, 6, 31, 96, 3, PCM16, 768000, 4096, 0.5f, 0.5f, 0, 1},
    };
    uint8_t *memory = room(MEMORY);
    uint32_t seed = 1;
    for (int k = 0; k < MEMORY; k++) memory[k] = (uint8_t)((seed = seed * 1664525 + 1013904223) >> 24);
    for (size_t k = 0; k < sizeof desks / sizeof *desks; k++) run(&desks[k], memory);
    free(memory);
    return 0;
}
