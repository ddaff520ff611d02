/* What the programs of this folder that try calls share: trials are counted, and what is left unwritten is seen. */
#ifndef TRIALS_H
#define TRIALS_H

#include "cevandle.h"

#include <inttypes.h>
#include <stdio.h>
#include <string.h>

static int passed, failed;

static void count(const char *what, int held)
{
    if (held) {
        passed++;
    } else {
        failed++;
        printf("c_library: %s\n", what);
    }
}

/* Says how many trials passed and failed; returns the status. */
static int counted(void)
{
    printf("%d passed, %d failed\n", passed, failed);
    return failed != 0;
}

/* What a call is not to write is filled with this. */
static void fill(void *at, size_t bytes)
{
    memset(at, 0xAA, bytes);
}

static int is_filled(const void *at, size_t bytes)
{
    const unsigned char *byte = at;
    for (size_t i = 0; i < bytes; i++) {
        if (byte[i] != 0xAA) {
            return 0;
        }
    }
    return 1;
}

#endif
