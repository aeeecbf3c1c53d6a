#ifndef _GNU_SOURCE
#define _GNU_SOURCE 1
#endif
#include "region.h"

#include <string.h>
#include <sys/mman.h>

#include "desk.h"

#define PAGE 4096

Region region(size_t most) {
    Region r;
    r.bytes = (most + PAGE - 1) / PAGE * PAGE;
    r.start = (uint8_t *)mmap(NULL, r.bytes + 2 * PAGE, PROT_NONE, MAP_PRIVATE | MAP_ANONYMOUS, -1, 0);
    if (r.start == MAP_FAILED) {
        fail("mmap");
    }
    r.start += PAGE;
    allow(r, 1);
    return r;
}

void release(Region r) {
    munmap(r.start - PAGE, r.bytes + 2 * PAGE);
}

uint8_t *place(Region r, size_t bytes, int at_end) {
    return at_end ? r.start + r.bytes - bytes : r.start;
}

void allow(Region r, int writing) {
    if (r.bytes > 0 && mprotect(r.start, r.bytes, writing ? PROT_READ | PROT_WRITE : PROT_READ) != 0) {
        fail("mprotect");
    }
}

const uint8_t *lend(Region r, const uint8_t *bytes, size_t n, int at_end) {
    uint8_t *p = place(r, n, at_end);
    allow(r, 1);
    if (n > 0) {
        memcpy(p, bytes, n);
    }
    allow(r, 0);
    return p;
}
