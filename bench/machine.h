/* The round machine in C: the same memory layout as the proved one, the same tests in the same order. It is written as one would write it by hand,
   and nothing of it is proved: it is the peer that bench/run times the proved machine beside. */
#ifndef BENCH_MACHINE_H
#define BENCH_MACHINE_H

#include <stdint.h>
#include <string.h>

enum { MOST_PROCESSES = 16, WINDOW = 8, LAST_ROUND = 65535, MOST_EVENTS = 1000000 };

enum {
    HEADS = 16,
    LINE = 16,
    LETTER = 4,
    TRANSIT = HEADS + MOST_PROCESSES * LINE,
    MAIL = TRANSIT + MOST_PROCESSES * WINDOW,
    RUN = MAIL + MOST_PROCESSES * WINDOW * MOST_PROCESSES * LETTER
};

enum { SIZE, EVENTS };
enum { VALUE, VOTED, VOTE, DECIDED, DECISION, ROUND, SENT, HEARD, REACH, SINCE, COUNTS };
enum { CARRIED = 3 };

static uint32_t full(uint32_t n) { return (UINT32_C(1) << n) - 1; }

static uint32_t *line(uint32_t *run, uint32_t p) { return run + HEADS + p * LINE; }

static uint32_t *transit(uint32_t *run, uint32_t p, uint32_t r) { return run + TRANSIT + p * WINDOW + r % WINDOW; }

static uint32_t *letter(uint32_t *run, uint32_t p, uint32_t r, uint32_t q)
{
    return run + MAIL + ((p * WINDOW + r % WINDOW) * MOST_PROCESSES + q) * LETTER;
}

static unsigned stage(uint32_t *run, uint32_t p)
{
    uint32_t *s = line(run, p), all = full(run[SIZE]);
    if (s[SENT] != all)
        return 0;
    if (*transit(run, p, s[ROUND]))
        return 1;
    return s[HEARD] != all ? 2 : 3;
}

static void settle(uint32_t *run, uint32_t p)
{
    uint32_t *s = line(run, p);
    s[COUNTS + stage(run, p)] += run[EVENTS] - s[SINCE];
    s[SINCE] = run[EVENTS];
}

static int send_to(uint32_t *run, uint8_t p, uint8_t q)
{
    if (p >= run[SIZE] || q >= run[SIZE])
        return 2;
    if (run[EVENTS] >= MOST_EVENTS)
        return 8;
    uint32_t *s = line(run, p);
    if (s[SENT] >> q & 1)
        return 3;
    int64_t lead = (int64_t)s[ROUND] - (int64_t)line(run, q)[ROUND];
    if (lead == WINDOW)
        return 4;
    run[EVENTS]++;
    settle(run, p);
    settle(run, q);
    s[SENT] |= UINT32_C(1) << q;
    if (lead >= 0) {
        *transit(run, q, s[ROUND]) |= UINT32_C(1) << p;
        uint32_t *m = letter(run, q, s[ROUND], p);
        m[VALUE] = s[VALUE];
        m[VOTED] = s[VOTED];
        m[VOTE] = s[VOTE];
        m[CARRIED] = s[REACH];
    }
    return 0;
}

static int receive_from(uint32_t *run, uint8_t p, uint8_t q)
{
    if (p >= run[SIZE] || q >= run[SIZE])
        return 2;
    if (run[EVENTS] >= MOST_EVENTS)
        return 8;
    uint32_t *s = line(run, p), *t = transit(run, p, s[ROUND]);
    if (!(*t >> q & 1))
        return 5;
    run[EVENTS]++;
    settle(run, p);
    *t &= ~(UINT32_C(1) << q);
    s[HEARD] |= UINT32_C(1) << q;
    return 0;
}

static int step(uint32_t *run, uint8_t p)
{
    if (p >= run[SIZE])
        return 2;
    if (run[EVENTS] >= MOST_EVENTS)
        return 8;
    uint32_t *s = line(run, p);
    if (s[SENT] != full(run[SIZE]))
        return 6;
    if (s[ROUND] == LAST_ROUND)
        return 7;
    uint32_t heard = 0, least = 0, same = 1, voted = 0, least_vote = 0, agreed = 1, reach = s[REACH];
    for (uint32_t q = 0; q < run[SIZE]; q++) {
        if (!(s[HEARD] >> q & 1))
            continue;
        uint32_t *m = letter(run, p, s[ROUND], q);
        if (!heard) {
            least = m[VALUE];
        } else {
            same &= m[VALUE] == least;
            least = m[VALUE] < least ? m[VALUE] : least;
        }
        heard = 1;
        if (!m[VOTED]) {
            agreed = 0;
        } else if (!voted) {
            voted = 1;
            least_vote = m[VOTE];
        } else {
            agreed &= m[VOTE] == least_vote;
            least_vote = m[VOTE] < least_vote ? m[VOTE] : least_vote;
        }
        reach |= m[CARRIED];
    }
    run[EVENTS]++;
    settle(run, p);
    if (s[ROUND] % 2) {
        if (heard)
            s[VALUE] = least;
        if (heard && same) {
            s[VOTED] = 1;
            s[VOTE] = least;
        }
    } else {
        s[VOTED] = 0;
        s[VOTE] = 0;
        if (heard)
            s[VALUE] = voted ? least_vote : least;
        if (voted && agreed) {
            s[DECIDED] = 1;
            s[DECISION] = least_vote;
        }
    }
    *transit(run, p, s[ROUND]) = 0;
    s[ROUND]++;
    s[SENT] = 0;
    s[HEARD] = 0;
    s[REACH] = reach;
    return 0;
}

static int begin(uint32_t *run, uint32_t n, const uint32_t *values, size_t given)
{
    if (n == 0 || n > MOST_PROCESSES)
        return 1;
    if (given != n)
        return 11;
    memset(run, 0, RUN * sizeof *run);
    run[SIZE] = n;
    for (uint32_t p = 0; p < n; p++) {
        uint32_t *s = line(run, p);
        s[VALUE] = values[p];
        s[ROUND] = 1;
        s[REACH] = UINT32_C(1) << p;
    }
    return 0;
}

#endif
