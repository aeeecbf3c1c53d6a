/* Jeqlluna: an audio renderer, proved. The library is built for x86-64 Linux by `tools/build cabi` (target/staticlib/libcabi.a).
 *
 * A slice is a pointer and a count of elements. The caller owns all memory; a call keeps no pointer after it returns and allocates
 * nothing. The caller sees to it that a pointer is aligned, that so many elements lie there, and that a slice which is written overlaps
 * no other slice of the call, and nobody else uses it meanwhile. Where the count is 0 the pointer may be NULL. Any contents and any
 * numbers are allowed.
 *
 * A renderer is five slices: words, longs, floats, contexts and history. jeqlluna_lengths says how long each is, jeqlluna_open fills
 * them, updates and renders go on from what the call before left there. Copying all five copies the renderer. Each may be used by one
 * thread at a time.
 *
 * Each call answers a number: 0, or the first question that it answered "no". Then its other results are 0 and no slice has changed.
 *
 * The proofs assume the floating-point mode that a program starts in: MXCSR rounds to nearest, flushes nothing (FTZ and DAZ off) and
 * masks all exceptions. In another mode nothing is proved. What bindings/c/mode.c sees: where rounding is another, nearly all frames and
 * about half of the states differ, and now and then a reply or a render's rounds; with FTZ or DAZ the frames that come of subnormal
 * numbers; answers' numbers do not. An exception that is not masked ends a call midway by SIGFPE; what its slices then hold is open. */
#ifndef JEQLLUNA_H
#define JEQLLUNA_H

#include <stddef.h>
#include <stdint.h>

#ifdef __cplusplus
extern "C" {
#endif

#define JEQLLUNA_VERSION "0.9.0"
#define JEQLLUNA_VERSION_MAJOR 0
#define JEQLLUNA_VERSION_MINOR 9
#define JEQLLUNA_VERSION_PATCH 0

/* The bytes of stack that a call takes at most; measured, and held to by bindings/stack. */
#define JEQLLUNA_STACK 136192

enum {
    JEQLLUNA_OK = 0,
    JEQLLUNA_SAMPLES = 1, /* samples per render are not 1..256 */
    JEQLLUNA_COUNTS = 2,  /* another count of the parameters is too large */
    JEQLLUNA_LENGTHS = 3, /* the five slices are not as long as jeqlluna_lengths says */
    JEQLLUNA_STATE = 4,   /* the five slices hold no renderer */
    JEQLLUNA_MEMORY = 5,  /* base + length of a range is above 2^63 */
    JEQLLUNA_REPLY = 6,   /* the reply slice is too short */
    JEQLLUNA_FRAMES = 7,  /* the frame slice is shorter than 2 * samples, of a section than count * 2 * samples */
    JEQLLUNA_START = 8,   /* ADPCM: the start is above 2^60 */
    JEQLLUNA_OUTPUT = 9,  /* ADPCM: the output is shorter than count */
    /* 10 is the session program's and no answer of the library */
    JEQLLUNA_DSP_HEADER = 11, /* DSP file: fewer than 96 bytes, or format, gain or padding is not 0 */
    JEQLLUNA_DSP_LENGTH = 12, /* DSP file: the data is too short for its samples, or the output for the file */
    JEQLLUNA_RANGES = 13, /* more than 16 ranges; a part outside memory; or a base below the end of the range before */
    JEQLLUNA_COUNT = 14,  /* a section of more than 1,024 renders */
    JEQLLUNA_ENCODED = 15, /* ADPCM: the output is too short for the encoded samples */
    JEQLLUNA_VOICES = 16,   /* merge: a voice is in use in both blocks */
    JEQLLUNA_CHANNELS = 17, /* merge: a channel is named from both blocks */
    JEQLLUNA_BLOCK = 18     /* merge: the output is too short for the merged block */
};

/* What a number says, in words. Never NULL. */
static inline const char *jeqlluna_refusal(uint32_t number) {
    switch (number) {
    case JEQLLUNA_OK:
        return "no refusal";
    case JEQLLUNA_SAMPLES:
        return "samples per render are not 1 to 256";
    case JEQLLUNA_COUNTS:
        return "another count of the parameters is too large";
    case JEQLLUNA_LENGTHS:
        return "the five slices are not as long as the parameters ask";
    case JEQLLUNA_STATE:
        return "the five slices hold no renderer";
    case JEQLLUNA_MEMORY:
        return "a range of sample memory ends above 2^63";
    case JEQLLUNA_REPLY:
        return "the reply slice is too short";
    case JEQLLUNA_FRAMES:
        return "the frame slice is shorter than 2 * samples for each render";
    case JEQLLUNA_START:
        return "the start of an ADPCM decode is above 2^60";
    case JEQLLUNA_OUTPUT:
        return "the output of an ADPCM decode is shorter than the count";
    case JEQLLUNA_DSP_HEADER:
        return "a DSP file has no whole header, or format, gain or padding is not 0";
    case JEQLLUNA_DSP_LENGTH:
        return "the data of a DSP file is too short for its samples, or the output for the file";
    case JEQLLUNA_RANGES:
        return "there are more than 16 ranges, a part lies outside memory, or a base below the end of the range before";
    case JEQLLUNA_COUNT:
        return "a section has more than 1,024 renders";
    case JEQLLUNA_ENCODED:
        return "the output of an ADPCM encode is too short for the samples";
    case JEQLLUNA_VOICES:
        return "a voice is in use in both blocks";
    case JEQLLUNA_CHANNELS:
        return "a channel is named from both blocks";
    case JEQLLUNA_BLOCK:
        return "the output of a merge is too short for the block";
    default:
        return "an unknown number";
    }
}

/* Bytes of the parameters: 32-bit little-endian numbers. At 0x00 the sample rate, 0x04 samples per render (1..256), 0x08 mix buffers
 * (0..96), 0x0c sub-mixes (0..31), 0x10 voices (0..64), 0x14 sinks (0..8), 0x18 effects (0..64), 0x24 splitters (0..32), 0x28 splitter
 * destinations (0..128), 0x30 the revision word. Of a shorter slice a field that is not whole is 0; of a longer one the rest is
 * not read. */
#define JEQLLUNA_PARAMETERS 0x34

typedef struct {
    uint32_t number;
    size_t words, longs, floats, contexts, history; /* elements */
} JeqllunaLengths;

typedef struct {
    uint32_t number;
    size_t size; /* bytes of the reply */
} JeqllunaLength;

typedef struct {
    uint32_t number;
    size_t size; /* bytes of the reply */
} JeqllunaUpdate;

typedef struct {
    uint32_t number;
    uint32_t rounds; /* rounds that the fetches of all voices took, of a section in all its renders */
} JeqllunaRender;

typedef struct {
    uint32_t number, count; /* how many sub-mixes run */
    uint32_t mixes[31];     /* their numbers, the first to run first; 0 beyond count */
} JeqllunaOrder;

/* What an ADPCM decode or encode starts from and leaves: the last header, the last sample and the one before it. */
typedef struct {
    uint16_t pred_scale;
    int16_t history0, history1;
} JeqllunaContext;

typedef struct {
    uint32_t number;
    size_t done; /* samples decoded, fewer than count where the data ran out */
    JeqllunaContext context;
} JeqllunaDecoded;

typedef struct {
    uint32_t number;
    size_t size; /* bytes written */
    JeqllunaContext context;
    uint64_t error; /* the sum of the squared differences between what was encoded and what it decodes to; 2^64 - 1 if it would be more */
} JeqllunaEncoded;

/* The values of a DSP file's header, in the file's sequence; padding is none of them. */
typedef struct {
    uint32_t samples, nibbles, rate;
    uint16_t loop_flag, format; /* a format other than 0 is refused */
    uint32_t loop_start, loop_end, address;
    int16_t coefficients[16]; /* eight pairs, as jeqlluna_decode_adpcm takes them */
    uint16_t gain;            /* so is a gain */
    JeqllunaContext start_context, loop_context; /* to decode with from the first sample on, and from the loop's start on */
} JeqllunaDsp;

typedef struct {
    uint32_t number;
    JeqllunaDsp header;
    size_t data, data_len; /* where the data begins in the file, 96, and its bytes: all up to the file's end */
} JeqllunaDspRead;

typedef struct {
    uint32_t number;
    size_t size; /* bytes written: 96 + data_len */
} JeqllunaDspWritten;

typedef struct {
    uint32_t number;
    size_t size; /* bytes of the merged block */
} JeqllunaMerged;

/* How long the five slices of a renderer must be. Refusals: 1, 2. */
JeqllunaLengths jeqlluna_lengths(const uint8_t *parameters, size_t parameters_len);

/* How long the reply of a renderer with these parameters is to an update that expects so many bytes. Refusals: 1, 2. */
JeqllunaLength jeqlluna_reply_length(const uint8_t *parameters, size_t parameters_len, uint32_t expected);

/* Makes a renderer, whatever its slices held. Refusals: 1, 2, 3. */
uint32_t jeqlluna_open(
    const uint8_t *parameters, size_t parameters_len,
    uint32_t *words, size_t words_len, uint64_t *longs, size_t longs_len, float *floats, size_t floats_len,
    uint16_t *contexts, size_t contexts_len, float *history, size_t history_len);

/* A title's update. expected is the size of reply that the title expects, input its bytes. The reply goes to the front of its slice; bytes
 * beyond it stay. Where input_len is 0 the five slices stay as they are, and the reply tells the positions as they stand: played and
 * consumed of each voice in use, but 0 and 0 of one that is new until a render has taken it on, and of those not in use. Any longer input
 * puts each voice out of use whose record is missing from it. Refusals: 4, 6. */
JeqllunaUpdate jeqlluna_update(
    uint32_t *words, size_t words_len, uint64_t *longs, size_t longs_len, float *floats, size_t floats_len,
    uint16_t *contexts, size_t contexts_len, float *history, size_t history_len,
    uint32_t expected, const uint8_t *input, size_t input_len, uint8_t *reply, size_t reply_len);

/* One render. 2 * samples floats, left and right by turns, go to the front of frames; floats beyond them stay. Each is in -1..1 or NaN. A
 * voice so slow that it needs no new sample is interpolated from its last three and a fourth, 2 * third - second.
 *
 * Sample memory is in ranges, 16 at most: three numbers each, base, start and length. The addresses base to base + length - 1 are the
 * bytes of memory from start on. Ranges ascend and don't overlap in address: each base is at least base + length of the range before.
 * Their parts of memory may stand in any sequence and overlap. A length may be 0. A read succeeds where each of its addresses lies in a
 * range: it may cross ranges that touch, whether or not their parts do; a gap fails it. A read of 0 bytes succeeds. Where there is no
 * range, sample memory has no bytes. ranges_len counts numbers; one or two left over are no range and are not read. All of memory from
 * an address on is {address, 0, memory_len}. Refusals, in this sequence: 4, 13, 5, 7. */
JeqllunaRender jeqlluna_render(
    uint32_t *words, size_t words_len, uint64_t *longs, size_t longs_len, float *floats, size_t floats_len,
    uint16_t *contexts, size_t contexts_len, float *history, size_t history_len,
    const uint64_t *ranges, size_t ranges_len, const uint8_t *memory, size_t memory_len, float *frames, size_t frames_len);

/* A section: count renders one after the other, 1,024 at most, each with the same ranges and memory. What the five slices hold after it,
 * the frames and the sum of the rounds are those of so many calls of jeqlluna_render. Render k, counted from 0, writes the floats
 * k * 2 * samples to (k + 1) * 2 * samples - 1 of frames; floats beyond count * 2 * samples stay. Where count is 0 the same questions are
 * asked, no float is needed, rounds are 0 and nothing changes. Refusals, in this sequence: 4, 13, 5, 14, 7. */
JeqllunaRender jeqlluna_render_section(
    uint32_t *words, size_t words_len, uint64_t *longs, size_t longs_len, float *floats, size_t floats_len,
    uint16_t *contexts, size_t contexts_len, float *history, size_t history_len, uint32_t count,
    const uint64_t *ranges, size_t ranges_len, const uint8_t *memory, size_t memory_len, float *frames, size_t frames_len);

/* The sub-mixes that a render runs, in their sequence. Refusal: 4. */
JeqllunaOrder jeqlluna_mix_order(
    const uint32_t *words, size_t words_len, const uint64_t *longs, size_t longs_len, const float *floats, size_t floats_len,
    const uint16_t *contexts, size_t contexts_len, const float *history, size_t history_len);

/* Decodes count ADPCM samples from sample start on to the front of output, as whole numbers in the 16-bit range; no renderer is needed. The
 * data's first byte is the one that holds the start's nibble. There are eight pairs of coefficients: of a longer slice the first 16 numbers
 * count, and those that a shorter one lacks are 0. Floats beyond the samples stay. Refusals: 8, 9. */
JeqllunaDecoded jeqlluna_decode_adpcm(
    const uint8_t *data, size_t data_len, uint64_t start, size_t count, const int16_t *coefficients, size_t coefficients_len,
    JeqllunaContext context, float *output, size_t output_len);

/* Encodes samples as ADPCM frames to the front of output; no renderer is needed. Samples take 8 bytes for each 14 of them; of the rest, if
 * there is any, a byte for its header and one for each two or a last one alone, whose low nibble is 0. Bytes beyond them stay. For each
 * frame every header with predictor 0 to 7 and scale 0 to 15 is tried, from the samples before the frame as they decode: each nibble in
 * turn is the one whose decoded sample is nearest, the lowest signed one of several. The header kept has the least sum of squared
 * differences, the lowest one of several. Coefficients are taken as in jeqlluna_decode_adpcm, which from the same context decodes the
 * bytes to the samples that the error was counted with. The context that comes back has the last frame's header and the last two decoded
 * samples; after whole frames a next call goes on with it. Where there are no samples, size and error are 0 and the context comes back as
 * it was. Refusal: 15. */
JeqllunaEncoded jeqlluna_encode_adpcm(
    const int16_t *samples, size_t samples_len, const int16_t *coefficients, size_t coefficients_len, JeqllunaContext context,
    uint8_t *output, size_t output_len);

/* Reads a DSP file: its header, 96 bytes, big-endian, and where its data stands. Samples take 8 bytes for each 14 of them; of the rest, if
 * there is any, a byte for its header and one for each two or a last one alone. The data has as many bytes or more. Other values than
 * samples, format and gain may be any. Refusals: 11, 12. */
JeqllunaDspRead jeqlluna_read_dsp(const uint8_t *file, size_t file_len);

/* Writes a DSP file to the front of output: the header with 22 bytes of 0 for padding, and all of the data. Bytes beyond them stay. A file
 * that was read and is written again has the same bytes. Refusals: 11 (of format and gain alone), 12. */
JeqllunaDspWritten jeqlluna_write_dsp(JeqllunaDsp header, const uint8_t *data, size_t data_len, uint8_t *output, size_t output_len);

/* Makes one update block of a title's and a click track's, both inputs of jeqlluna_update for a renderer with these parameters, of any
 * length; no renderer is needed. The block goes to the front of output; bytes beyond it stay. It has, one behind the other:
 * - the title's header, 0x40 bytes, but for two sizes: voices * 0x170 at 0x0c and voices * 0x70 at 0x10;
 * - the title's behaviour section and pools, as long as this header says;
 * - voices channel resources: each from the click's block where a voice of that names it, else from the title's;
 * - voices records: the one that is in use, the title's or the click's, or zeros; one that is cut short is none;
 * - every byte of the title's block from its effects on.
 * Bytes that a block lacks are 0. A voice in use names the numbers of its first channels, as many as it plays, as an update reads them.
 * From one renderer, and before the same renders, each voice of the merged block plays as in the block that it came from, as far as its
 * position goes; one that is in use in neither is put out of use. title_len + 0x1e0 * voices bytes of output are enough where the title's
 * header, behaviour section and pools lie inside it. Refusals, in this sequence: 2, 16, 17, 18. */
JeqllunaMerged jeqlluna_merge(
    const uint8_t *parameters, size_t parameters_len, const uint8_t *title, size_t title_len, const uint8_t *click, size_t click_len,
    uint8_t *output, size_t output_len);

#ifdef __cplusplus
}
#endif

#endif
