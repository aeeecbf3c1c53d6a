#include "dsp.h"

#include <string.h>

/* Places in the header. */
enum { FORMAT = 0x0e, GAIN = 0x3c, PADDING = 0x4a };

size_t put_dsp(uint64_t *seed, uint8_t to[DSP_MOST]) {
    uint32_t frames = below(seed, 8), rest = below(seed, 14), samples = 14 * frames + rest, more = below(seed, 20);
    size_t data = 8 * frames + (rest > 0 ? 1 + (rest + 1) / 2 : 0);
    put_random(seed, to, DSP_MOST);
    memset(to, 0, 3);
    to[3] = (uint8_t)samples;
    memset(to + FORMAT, 0, 2);
    memset(to + GAIN, 0, 2);
    memset(to + PADDING, 0, DSP_HEADER - PADDING);
    switch (below(seed, 16)) {
    case 0:
        to[FORMAT + below(seed, 2)] = (uint8_t)(1 + below(seed, 255));
        break;
    case 1:
        to[GAIN + below(seed, 2)] = (uint8_t)(1 + below(seed, 255));
        break;
    case 2:
        to[PADDING + below(seed, DSP_HEADER - PADDING)] = (uint8_t)(1 + below(seed, 255));
        break;
    case 3:
        return below(seed, DSP_HEADER);
    case 4:
        return DSP_HEADER + (data > 0 ? below(seed, (uint32_t)data) : 0);
    default:
        break;
    }
    return DSP_HEADER + data + (more < 10 ? 0 : more);
}

int same_reads(const JeqllunaDspRead *a, const JeqllunaDspRead *b) {
    /* A header has no room between its values, only behind them. */
    size_t values = offsetof(JeqllunaDsp, loop_context) + sizeof a->header.loop_context;
    return a->number == b->number && a->data == b->data && a->data_len == b->data_len && memcmp(&a->header, &b->header, values) == 0;
}
