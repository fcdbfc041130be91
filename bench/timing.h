/* What the timing programs share: the processor's time, how often each is
 * timed, and the blocks of a file in memory. */
#ifndef TIMING_H
#define TIMING_H

#include <stdio.h>
#include <stdlib.h>
#include <time.h>

#include "cetv.h"

#define ROUNDS 15

static double now(void)
{
    struct timespec t;
    clock_gettime(CLOCK_PROCESS_CPUTIME_ID, &t);
    return (double)t.tv_sec + (double)t.tv_nsec * 1e-9;
}

/* The whole blocks of a file, and how many they are. */
static uint8_t *blocks_of(const char *path, size_t *blocks)
{
    FILE *file = fopen(path, "rb");
    if (!file || fseek(file, 0, SEEK_END))
        exit(1);
    *blocks = (size_t)ftell(file) / CETV_BLOCK_SIZE;
    uint8_t *data = malloc(*blocks * CETV_BLOCK_SIZE);
    rewind(file);
    if (!data || fread(data, CETV_BLOCK_SIZE, *blocks, file) != *blocks)
        exit(1);
    fclose(file);
    return data;
}

#endif
