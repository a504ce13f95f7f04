/* Heap blocks for the tests in C that the address sanitizer looks at: each ends where its bytes end, and all its bytes have a pattern before they
   are used, so that a byte read behind it, or written where none belongs, is seen. */

#ifndef BLOCKS_H
#define BLOCKS_H

#include <stdio.h>
#include <stdlib.h>
#include <string.h>

#include "tongsparkle.h"

/* size bytes, with others before them and none behind */
struct block {
    uint8_t *start;
    size_t before, size;
};

static uint8_t pattern(size_t i)
{
    return (uint8_t)(i * 151 + 7);
}

static void fill(struct block b)
{
    for (size_t i = 0; i < b.before + b.size; i++)
        b.start[i] = pattern(i);
}

static struct block block(size_t before, size_t size)
{
    struct block b = {malloc(before + size), before, size};
    if (b.start == NULL || (uintptr_t)b.start % 16 != 0) {
        fputs("no heap block, or none whose alignment is 16\n", stderr);
        exit(2);
    }
    fill(b);
    return b;
}

static uint8_t *at(struct block b)
{
    return b.start + b.before;
}

static struct block holding(size_t before, const uint8_t *bytes, size_t size)
{
    struct block b = block(before, size);
    memcpy(at(b), bytes, size);
    return b;
}

/* An empty block has a byte before it, so that its pointer is one past the end of a block of 1 byte. */
static struct block exactly(const uint8_t *bytes, size_t size)
{
    return holding(size == 0, bytes, size);
}

/* Whether all bytes but those of n rows have the pattern. */
static int others_stay(struct block report, unsigned n)
{
    for (size_t i = 0; i < report.before + report.size; i++) {
        int of_a_row = i >= report.before && i < report.before + (size_t)TONGSPARKLE_ROW * n;
        if (!of_a_row && report.start[i] != pattern(i))
            return 0;
    }
    return 1;
}

#endif
