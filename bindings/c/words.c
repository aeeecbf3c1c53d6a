/* The version and the words of every number, from the header alone. */
#include <stdio.h>
#include <string.h>

#include "desk.h"

/* Whether a refusal has this number; 10 is the session program's. */
static int is_refusal(uint32_t number) {
    return number >= JEQLLUNA_SAMPLES && number <= JEQLLUNA_BLOCK && number != 10;
}

int main(void) {
    char version[32];
    int refusals = 0;
    uint32_t a, b;
    const char *unknown = jeqlluna_refusal(0xffffffff);
    sprintf(version, "%d.%d.%d", JEQLLUNA_VERSION_MAJOR, JEQLLUNA_VERSION_MINOR, JEQLLUNA_VERSION_PATCH);
    if (strcmp(version, JEQLLUNA_VERSION) != 0) {
        fail("version %s and %s", JEQLLUNA_VERSION, version);
    }
    for (a = 0; a <= 1000; a++) {
        const char *words = jeqlluna_refusal(a);
        if (words == NULL || words[0] == 0) {
            fail("number %u has no words", (unsigned)a);
        }
        refusals += is_refusal(a);
        if ((strcmp(words, unknown) == 0) != (a != JEQLLUNA_OK && !is_refusal(a))) {
            fail("number %u: %s", (unsigned)a, words);
        }
        for (b = 0; b < a && is_refusal(a); b++) {
            if (strcmp(words, jeqlluna_refusal(b)) == 0) {
                fail("numbers %u and %u have the same words", (unsigned)a, (unsigned)b);
            }
        }
    }
    printf("version %s, %d refusals in words\n", version, refusals);
    return 0;
}
