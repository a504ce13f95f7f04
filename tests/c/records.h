/* What the tests in C share: the count of what holds, a trace made record by record, and the numbers of a report. */

#ifndef RECORDS_H
#define RECORDS_H

#include <stdio.h>
#include <stdlib.h>

#include "tongsparkle.h"

static unsigned passed, failed;

static void check(int holds, const char *what)
{
    if (holds) {
        passed++;
    } else {
        failed++;
        printf("FAILED: %s\n", what);
    }
}

/* Says how many checks held; gives the exit status. */
static int told(void)
{
    printf("%u passed, %u failed\n", passed, failed);
    return failed == 0 && passed > 0 ? 0 : 1;
}

/* The limits of document 01. The header's room and row say how many processes there may be; for the others it has no name. */
enum { MOST_PROCESSES = TONGSPARKLE_ROOM / TONGSPARKLE_ROW, WINDOW = 8, LAST_ROUND = 65535, MOST_EVENTS = 1000000 };

/* ---- a trace, record by record */
enum { LARGEST = 1 << 20 };

static uint8_t written[LARGEST];
static size_t length;

static void byte(unsigned x)
{
    if (length == LARGEST) {
        fputs("the trace is too long for this test\n", stderr);
        exit(2);
    }
    written[length++] = (uint8_t)x;
}

static void head(unsigned tag, unsigned body)
{
    byte(tag);
    byte(body / 256);
    byte(body % 256);
}

/* An opening in which process p has the value first + p. */
static void opening(unsigned n, uint32_t first)
{
    length = 0;
    head(0x01, 1 + 4 * n);
    byte(n);
    for (uint32_t p = 0; p < n; p++) {
        uint32_t v = first + p;
        byte(v >> 24);
        byte(v >> 16 & 255);
        byte(v >> 8 & 255);
        byte(v & 255);
    }
}

static void send(unsigned p, unsigned q) { head(0x10, 2); byte(p); byte(q); }
static void receive(unsigned p, unsigned q) { head(0x11, 2); byte(p); byte(q); }
static void step(unsigned p) { head(0x12, 1); byte(p); }
static void broadcast(unsigned p) { head(0x13, 1); byte(p); }
static void end(void) { head(0x7f, 0); }

/* Document 01's trace without its end record. */
static void example(void)
{
    length = 0;
    head(0x01, 9);
    byte(2);
    byte(0), byte(0), byte(0), byte(7);
    byte(0), byte(0), byte(0), byte(4);
    send(0, 0), send(0, 1), receive(0, 0), send(1, 0), receive(0, 1), step(0);
}

/* ---- a number of a report: four bytes, the most significant first */
static uint32_t number(const uint8_t *bytes)
{
    return (uint32_t)bytes[0] << 24 | (uint32_t)bytes[1] << 16 | (uint32_t)bytes[2] << 8 | bytes[3];
}

#endif
