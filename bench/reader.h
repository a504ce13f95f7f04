/* The reader of a trace in C, on the machine of machine.h: each record is tested in document 01's order and then carried out. It is written as one
   would write it by hand, and nothing of it is proved. call.c hands it a whole trace; sheet.c hands it one piece after another. */
#ifndef BENCH_READER_H
#define BENCH_READER_H

#include <stddef.h>
#include <stdint.h>

#include "machine.h"

/* A record: a tag and a length, together HEAD bytes, and a body. */
enum { OPENING = 0x01, SEND = 0x10, RECEIVE = 0x11, STEP = 0x12, BROADCAST = 0x13, END = 0x7f };
enum { HEAD = 3 };

/* The numbers of document 01 that depend on where the bytes end. */
enum { READ_TO_THE_END = 0, CUT = 9, BYTES_BEHIND = 13 };

/* What is called at each accepted step, with the round finished and whom the process heard in it. */
typedef void after_step(uint32_t p, uint32_t round, uint32_t heard);

static uint32_t broadcast(uint32_t *run, uint8_t p)
{
    if (p >= run[SIZE])
        return 2;
    if (run[EVENTS] + run[SIZE] > MOST_EVENTS)
        return 8;
    uint32_t *s = line(run, p);
    for (uint32_t q = 0; q < run[SIZE]; q++) {
        if (s[SENT] >> q & 1)
            return 3;
        if ((int64_t)s[ROUND] - (int64_t)line(run, q)[ROUND] == WINDOW)
            return 4;
    }
    for (uint32_t q = 0; q < run[SIZE]; q++)
        send_to(run, p, (uint8_t)q);
    return 0;
}

static uint32_t finish_round(uint32_t *run, uint8_t p, after_step *tell)
{
    uint32_t heard = p < run[SIZE] ? line(run, p)[HEARD] : 0, number = (uint32_t)step(run, p);
    if (number == 0 && tell)
        tell(p, line(run, p)[ROUND] - 1, heard);
    return number;
}

static uint32_t opening(uint32_t *run, uint32_t length, const uint8_t *body, size_t left)
{
    uint32_t values[255];
    if (run[SIZE] != 0)
        return 12;
    if (length == 0)
        return 11;
    if (left < 1)
        return CUT;
    if (length != 1 + 4 * (uint32_t)body[0])
        return 11;
    if (left < length)
        return CUT;
    for (uint32_t p = 0; p < body[0]; p++) {
        const uint8_t *b = body + 1 + 4 * p;
        values[p] = (uint32_t)b[0] << 24 | (uint32_t)b[1] << 16 | (uint32_t)b[2] << 8 | b[3];
    }
    return (uint32_t)begin(run, body[0], values, body[0]);
}

/* Of every record but an opening: whether it stands in its place, has the length that its tag asks for, and is all there. */
static uint32_t shape(const uint32_t *run, uint32_t length, uint32_t wanted, size_t left)
{
    if (run[SIZE] == 0)
        return 12;
    if (length != wanted)
        return 11;
    return left < wanted ? CUT : 0;
}

static uint32_t one_record(uint32_t *run, uint32_t tag, uint32_t length, const uint8_t *body, size_t left, after_step *tell)
{
    uint32_t number;
    switch (tag) {
    case OPENING:
        return opening(run, length, body, left);
    case SEND:
        number = shape(run, length, 2, left);
        return number ? number : (uint32_t)send_to(run, body[0], body[1]);
    case RECEIVE:
        number = shape(run, length, 2, left);
        return number ? number : (uint32_t)receive_from(run, body[0], body[1]);
    case STEP:
        number = shape(run, length, 1, left);
        return number ? number : finish_round(run, body[0], tell);
    case BROADCAST:
        number = shape(run, length, 1, left);
        return number ? number : broadcast(run, body[0]);
    case END:
        return shape(run, length, 0, left);
    default:
        return 10;
    }
}

/* Reads records from *from up to the end of the bytes, into a run whose size is 0 until an opening is accepted. Gives READ_TO_THE_END at an end
   record, with *from behind it; CUT where the bytes end before a record does, with *from at that record's first byte; else the refusal. */
static uint32_t records(uint32_t *run, const uint8_t **from, const uint8_t *end, after_step *tell)
{
    const uint8_t *at = *from;
    uint32_t number = CUT;
    while (end - at >= HEAD) {
        uint32_t tag = at[0], length = (uint32_t)at[1] << 8 | at[2];
        const uint8_t *body = at + HEAD;
        number = one_record(run, tag, length, body, (size_t)(end - body), tell);
        if (number != 0)
            break;
        at = body + length;
        if (tag == END)
            break;
        number = CUT;
    }
    *from = at;
    return number;
}

#endif
