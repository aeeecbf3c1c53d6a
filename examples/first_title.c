/* A first title: it plays a clip of 16-bit samples and scores a press against the position that the renderer tells. */
#include <stdio.h>
#include "jeqlluna.h"
#include "jeqlluna_title.h"
enum { BASE = 0x10000, RATE = 48000, SAMPLES = 240, CLIP = 4800, BEAT = 1200, WINDOW = 480 };
enum { ONE = 0x3f800000, REV5 = 0x35564552, SENT = 1 << 16, DEVICE = 0x0101, NEW_PCM16 = 0x02000101 }; /* words */
enum { WORDS = 83, LONGS = 15, FLOATS = 633, CONTEXTS = 3, HISTORY = 18 }; /* what jeqlluna_lengths says */
enum { PARAMETERS, UPDATE_HEADER = 0, CHANNEL_RESOURCE = JEQLLUNA_UPDATE_HEADER_SIZE, /* where the records stand */
       VOICE = CHANNEL_RESOURCE + JEQLLUNA_CHANNEL_RESOURCE_SIZE, WAVE = VOICE + JEQLLUNA_VOICE_WAVES,
       MIX = VOICE + JEQLLUNA_VOICE_SIZE, SINK = MIX + JEQLLUNA_MIX_SIZE, INPUT = SINK + JEQLLUNA_SINK_SIZE };
#define AT(record, field) [(record + JEQLLUNA_##record##_##field) / 4] /* the 32-bit word that holds a record's field */
static const uint32_t parameters[JEQLLUNA_PARAMETERS / 4] = {
    AT(PARAMETERS, SAMPLE_RATE) = RATE, AT(PARAMETERS, SAMPLE_COUNT) = SAMPLES, AT(PARAMETERS, MIX_BUFFERS) = 1,
    AT(PARAMETERS, VOICES) = 1, AT(PARAMETERS, SINKS) = 1, AT(PARAMETERS, REVISION) = REV5};
static uint32_t words[WORDS], input[INPUT / 4] = {
    AT(UPDATE_HEADER, CHANNEL_RESOURCES_SIZE) = JEQLLUNA_CHANNEL_RESOURCE_SIZE, AT(CHANNEL_RESOURCE, GAINS) = ONE,
    AT(UPDATE_HEADER, VOICES_SIZE) = JEQLLUNA_VOICE_SIZE, AT(UPDATE_HEADER, MIXES_SIZE) = JEQLLUNA_MIX_SIZE,
    AT(UPDATE_HEADER, SINKS_SIZE) = JEQLLUNA_SINK_SIZE, AT(VOICE, IS_NEW) = NEW_PCM16, AT(VOICE, SAMPLE_RATE) = RATE,
    AT(VOICE, PITCH) = ONE, AT(VOICE, VOLUME) = ONE, AT(VOICE, QUEUED) = 1, AT(WAVE, ADDRESS) = BASE,
    AT(WAVE, DATA_SIZE) = 2 * CLIP, AT(WAVE, END) = CLIP, AT(WAVE, SENT_BEFORE + 1 * JEQLLUNA_WAVE_SIZE) = SENT, AT(MIX, VOLUME) = ONE,
    AT(WAVE, SENT_BEFORE + 2 * JEQLLUNA_WAVE_SIZE) = SENT, AT(WAVE, SENT_BEFORE + 3 * JEQLLUNA_WAVE_SIZE) = SENT,
    AT(MIX, BUFFER_COUNT) = 1, AT(MIX, IN_USE) = 1, AT(SINK, KIND) = DEVICE, AT(SINK, INPUT_COUNT) = 1};
static uint64_t longs[LONGS], reply[128];
static const uint64_t range[3] = {BASE, 0, 2 * CLIP}; /* at BASE: memory from its byte 0 on, as long as the clip */
static uint16_t contexts[CONTEXTS], clip[CLIP] = {[BEAT] = 20000}; /* a click on the beat */
static float floats[FLOATS], history[HISTORY], frames[2 * SAMPLES];
#define STATE words, WORDS, longs, LONGS, floats, FLOATS, contexts, CONTEXTS, history, HISTORY

int main(void) {
    uint32_t error = jeqlluna_open((const uint8_t *)parameters, sizeof parameters, STATE);
    error = error ? error : jeqlluna_update(STATE, 0, (uint8_t *)input, sizeof input, (uint8_t *)reply, sizeof reply).number;
    for (int turn = 0; turn < 6 && !error; turn++) {
        error = jeqlluna_render(STATE, range, 3, (uint8_t *)clip, sizeof clip, frames, 2 * SAMPLES).number;
    }
    error = error ? error : jeqlluna_update(STATE, 0, NULL, 0, (uint8_t *)reply, sizeof reply).number; /* the press */
    if (error) return printf("refused: %s\n", jeqlluna_refusal(error));
    int played = (int)reply[(JEQLLUNA_REPLY_HEADER_SIZE + 4 * JEQLLUNA_REPLY_POOL_SIZE) / 8], off = played - 3 - BEAT;
    printf("played %d, heard up to sample %d, ", played, played - 3);
    printf("off the beat by %d: %s\n", off, off > -WINDOW && off < WINDOW ? "hit" : "miss");
}
