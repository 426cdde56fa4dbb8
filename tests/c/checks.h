/* What the tests of the calls have in common: checks that are counted, and blocks of exact sizes. */
#include <stdio.h>
#include <stdlib.h>
#include <string.h>

#include "heavy.h"

static int passed, failed;

static void check(const char *name, int holds) {
    if (holds) {
        passed++;
    } else {
        failed++;
        printf("FAILED: %s\n", name);
    }
}

/* A block of exactly so many bytes, so that a read or a write beyond it is found; and never null. */
static uint8_t *block(const void *bytes, size_t size) {
    uint8_t *made = malloc(size ? size : 1);
    if (!made)
        abort();
    if (size)
        memcpy(made, bytes, size);
    return made;
}

#define BYTES(text) text, sizeof(text) - 1

/* The saved summary of a 5 and b 3 with k 2: a total of 8 and two counters, each key with a length of two bytes; so each weight
   is known exactly. */
static const char ONE[] = "HHS2\1\0\2\0\0\0\0\0\0\0\10\0\2\0\1a\0\0\0\0\0\0\0\5\0\1b\0\0\0\0\0\0\0\3";

/* k 2, a total of 6: c 4 and a 2. */
#define TWO "HHS2\1\0\2\0\0\0\0\0\0\0\6\0\2\0\1a\0\0\0\0\0\0\0\2\0\1c\0\0\0\0\0\0\0\4"

/* Both merged: a 7, b 3 and c 4 are three keys; 3 is taken from each: a 4, c 1. */
#define BOTH "HHS2\1\0\2\0\0\0\0\0\0\0\16\0\2\0\1a\0\0\0\0\0\0\0\4\0\1c\0\0\0\0\0\0\0\1"
