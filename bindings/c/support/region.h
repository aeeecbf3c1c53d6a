/* Memory between two pages that can't be touched. */
#ifndef REGION_H
#define REGION_H

#include <stddef.h>
#include <stdint.h>

/* The pages between. */
typedef struct {
    uint8_t *start;
    size_t bytes;
} Region;

/* Pages for at least so many bytes, which may be none, and their end. */
Region region(size_t most);
void release(Region r);

/* Where so many bytes stand in a region: at its beginning or at its end. */
uint8_t *place(Region r, size_t bytes, int at_end);

/* Whether a region may be written, or only read. */
void allow(Region r, int writing);

/* Bytes that a call may only read. */
const uint8_t *lend(Region r, const uint8_t *bytes, size_t n, int at_end);

#endif
