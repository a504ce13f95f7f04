/* The C call on a trace of a million events: the most processes in lock step, 1,893 rounds, 999,504 events, a record for each. The trace is read
   twenty times. With -DPEER the call is the one below, on the reader of reader.h: the peer, written as one would write it by hand; else it is
   libtongsparkle.a's. What the report must hold at the end is known, and 'ok' is written where it is so. */
#include <stdio.h>
#include <stdlib.h>

#include "../include/tongsparkle.h"

enum { PROCESSES = TONGSPARKLE_ROOM / TONGSPARKLE_ROW, ROUNDS = 1893, TIMES = 20 };

#ifdef PEER
#include "reader.h"

static void put(uint8_t *b, uint32_t x)
{
    b[0] = (uint8_t)(x >> 24);
    b[1] = (uint8_t)(x >> 16);
    b[2] = (uint8_t)(x >> 8);
    b[3] = (uint8_t)x;
}

uint32_t tongsparkle_replay(const uint8_t *trace, size_t trace_len, uint8_t *report, size_t report_len)
{
    uint32_t run[RUN];
    if (report_len < TONGSPARKLE_ROOM)
        return TONGSPARKLE_NO_ROOM;
    memset(run, 0, sizeof run);
    const uint8_t *end = trace + trace_len;
    uint32_t number = records(run, &trace, end, NULL);
    if (number == READ_TO_THE_END && trace != end)
        number = BYTES_BEHIND;
    for (uint32_t p = 0; p < run[SIZE]; p++) {
        uint8_t *row = report + TONGSPARKLE_ROW * p;
        settle(run, p);
        put(row + TONGSPARKLE_ROUND, line(run, p)[ROUND]);
        for (int k = 0; k < 4; k++)
            put(row + TONGSPARKLE_SENDING + 4 * k, line(run, p)[COUNTS + k]);
        put(row + TONGSPARKLE_REACH, line(run, p)[REACH]);
    }
    return number;
}
#endif

static uint8_t *at;

static void record(unsigned tag, unsigned length, unsigned p, unsigned q)
{
    *at++ = (uint8_t)tag;
    *at++ = 0;
    *at++ = (uint8_t)length;
    if (length > 0)
        *at++ = (uint8_t)p;
    if (length > 1)
        *at++ = (uint8_t)q;
}

static uint32_t number(const uint8_t *b) { return (uint32_t)b[0] << 24 | (uint32_t)b[1] << 16 | (uint32_t)b[2] << 8 | b[3]; }

int main(void)
{
    uint8_t *trace = malloc(6000000), report[TONGSPARKLE_ROOM];
    if (!trace)
        return 2;
    at = trace;
    record(0x01, 0, 0, 0);
    at[-1] = 1 + 4 * PROCESSES;
    *at++ = PROCESSES;
    for (unsigned p = 0; p < PROCESSES; p++)
        *at++ = 0, *at++ = 0, *at++ = 0, *at++ = (uint8_t)(7 * p % PROCESSES);
    for (int round = 0; round < ROUNDS; round++) {
        for (unsigned p = 0; p < PROCESSES; p++)
            for (unsigned q = 0; q < PROCESSES; q++)
                record(0x10, 2, p, q);
        for (unsigned p = 0; p < PROCESSES; p++) {
            for (unsigned q = 0; q < PROCESSES; q++)
                record(0x11, 2, p, q);
            record(0x12, 1, p, 0);
        }
    }
    record(0x7f, 0, 0, 0);
    uint32_t given = 0;
    for (int k = 0; k < TIMES; k++)
        given += tongsparkle_replay(trace, (size_t)(at - trace), report, sizeof report);
    uint32_t sum = 0;
    for (unsigned k = TONGSPARKLE_SENDING; k <= TONGSPARKLE_IDLE; k += 4)
        sum += number(report + (PROCESSES - 1) * TONGSPARKLE_ROW + k);
    if (given == TONGSPARKLE_OK && sum == 999504 && number(report) == ROUNDS + 1 && number(report + TONGSPARKLE_REACH) == (1u << PROCESSES) - 1)
        puts("ok");
    free(trace);
    return 0;
}
