/* Hostile use of the call, as a test: empty traces and reports, pointers at every alignment, reports and traces of 10 MB, every prefix of document
   01's trace and every value of each of its bytes, and several threads at once.

   It is for the address sanitizer: every trace and every report is a heap block of blocks.h. Whatever is not a row of the report must have the
   block's pattern afterwards. Says 'N passed, M failed', and exits with 0 only where nothing failed.

   With the word 'trace' or 'report' it makes one wrong call, whose trace or report is a byte shorter than the length that it hands over. The
   sanitizer must end it: so it is seen that the sanitizer looks at what the library reads and writes, and not only at this file. */

#include <pthread.h>

#include "blocks.h"
#include "records.h"

enum { LONG = 10 * 1000 * 1000, FIELDS = TONGSPARKLE_ROW / 4, THREADS = 4, CALLS = 200 };

/* ---- a trace with what is wanted of it */
struct row {
    uint32_t field[FIELDS];
};

struct night {
    uint8_t trace[1 << 15];
    size_t size;
    unsigned n;
    struct row rows[MOST_PROCESSES];
};

static struct night two, most, of_thread[THREADS];

static void keep(struct night *night, unsigned n)
{
    if (length > sizeof night->trace) {
        fputs("the trace is too long for a night\n", stderr);
        exit(2);
    }
    memcpy(night->trace, written, length);
    night->size = length;
    night->n = n;
}

static int rows_are(const uint8_t *report, unsigned n, const struct row *rows)
{
    for (unsigned p = 0; p < n; p++)
        for (unsigned k = 0; k < FIELDS; k++)
            if (number(report + TONGSPARKLE_ROW * p + 4 * k) != rows[p].field[k])
                return 0;
    return 1;
}

/* Document 01's trace. */
static void night_of_two(struct night *night)
{
    example(), end();
    keep(night, 2);
    night->rows[0] = (struct row){{2, 2, 2, 1, 1, 3}};
    night->rows[1] = (struct row){{1, 6, 0, 0, 0, 2}};
}

/* In each round every process broadcasts and then every process steps. Process p has not sent to all at the events before the last of its broadcast,
   and from its step on; in between its own message is in transit to it. */
static void night_in_step(struct night *night, unsigned n, unsigned rounds)
{
    opening(n, 100);
    for (unsigned r = 0; r < rounds; r++) {
        for (unsigned p = 0; p < n; p++)
            broadcast(p);
        for (unsigned p = 0; p < n; p++)
            step(p);
    }
    end();
    keep(night, n);
    for (unsigned p = 0; p < n; p++) {
        uint32_t sending = n * (p + 1) - 1 + n - p;
        night->rows[p] = (struct row){{rounds + 1, rounds * sending, rounds * (n * n + n - sending), 0, 0, 1u << p}};
    }
}

/* At how many events the process was anywhere: S, C, P and I. */
static uint32_t events(const uint8_t *report, unsigned p)
{
    const uint8_t *row = report + TONGSPARKLE_ROW * p;
    return number(row + TONGSPARKLE_SENDING) + number(row + TONGSPARKLE_COLLECTING) + number(row + TONGSPARKLE_PENDING)
           + number(row + TONGSPARKLE_IDLE);
}

/* ---- a call: the trace and what stands before it must stay, and all of the report's block but n rows */
static void call(struct block trace, struct block report, uint32_t wanted, unsigned n, const char *what)
{
    struct block was = holding(trace.before, at(trace), trace.size);
    uint32_t given = tongsparkle_replay(at(trace), trace.size, at(report), report.size);
    if (given != wanted)
        printf("%s: %u, not %u\n", what, (unsigned)given, (unsigned)wanted);
    check(given == wanted, what);
    check(memcmp(trace.start, was.start, trace.before + trace.size) == 0, "the trace and the bytes before it stay as they were");
    check(others_stay(report, n), "all bytes but those of the rows stay as they were");
    free(was.start);
}

/* ---- the cases */
static void empty_traces(void)
{
    struct block behind = block(1, 0), some = block(0, 100), report = block(0, TONGSPARKLE_ROOM);
    call(behind, report, TONGSPARKLE_ENDS_INSIDE, 0, "an empty trace one past the end of a block");
    some.size = 0;
    call(some, report, TONGSPARKLE_ENDS_INSIDE, 0, "an empty trace that points to a block");
    free(behind.start), free(some.start), free(report.start);
}

static void empty_reports(void)
{
    struct block none = block(1, 0), empty = block(1, 0), whole = exactly(two.trace, two.size);
    call(whole, none, TONGSPARKLE_NO_ROOM, 0, "an empty report one past the end of a block");
    call(empty, none, TONGSPARKLE_NO_ROOM, 0, "an empty report one past the end of a block, and an empty trace");
    free(none.start), free(empty.start), free(whole.start);
}

static void alignments(void)
{
    for (size_t i = 0; i < 16; i++)
        for (size_t k = 0; k < 16; k++) {
            struct block trace = holding(i, two.trace, two.size), report = block(k, TONGSPARKLE_ROOM);
            call(trace, report, TONGSPARKLE_OK, 2, "document 01's trace at some alignment");
            check(rows_are(at(report), 2, two.rows), "its rows at some alignment");
            free(trace.start), free(report.start);
        }
}

static void long_report(const struct night *night)
{
    struct block trace = exactly(night->trace, night->size), report = block(0, LONG);
    call(trace, report, TONGSPARKLE_OK, night->n, "a report of 10 MB");
    check(rows_are(at(report), night->n, night->rows), "the rows of a report of 10 MB");
    free(trace.start), free(report.start);
}

static void long_zeros(void)
{
    struct block trace = block(0, LONG), report = block(0, TONGSPARKLE_ROOM);
    memset(at(trace), 0, LONG);
    call(trace, report, TONGSPARKLE_UNKNOWN_TAG, 0, "10 MB of zeros");
    free(trace.start), free(report.start);
}

/* The first byte behind the opening is no tag, so nothing is accepted but the opening. */
static void long_random(void)
{
    struct block trace = block(0, LONG), report = block(0, TONGSPARKLE_ROOM);
    uint32_t x = 1;
    for (size_t i = 0; i < LONG; i++) {
        x = x * 1664525 + 1013904223;
        at(trace)[i] = (uint8_t)(x >> 24);
    }
    opening(MOST_PROCESSES, 100);
    memcpy(at(trace), written, length);
    call(trace, report, TONGSPARKLE_UNKNOWN_TAG, MOST_PROCESSES, "10 MB of random bytes behind an opening");
    for (unsigned p = 0; p < MOST_PROCESSES; p++) {
        struct row row = {{1, 0, 0, 0, 0, 1u << p}};
        check(rows_are(at(report) + TONGSPARKLE_ROW * p, 1, &row), "a process to which nothing has happened");
    }
    free(trace.start), free(report.start);
}

/* The most processes, which send to all, hear from all and step, over and over: the most events are accepted, and the next is not. */
static void long_events(void)
{
    struct block trace = block(0, LONG), report = block(0, TONGSPARKLE_ROOM);
    opening(MOST_PROCESSES, 100);
    size_t filled = length;
    memcpy(at(trace), written, filled);
    length = 0;
    for (unsigned p = 0; p < MOST_PROCESSES; p++)
        for (unsigned q = 0; q < MOST_PROCESSES; q++)
            send(p, q);
    for (unsigned p = 0; p < MOST_PROCESSES; p++)
        for (unsigned q = 0; q < MOST_PROCESSES; q++)
            receive(p, q);
    for (unsigned p = 0; p < MOST_PROCESSES; p++)
        step(p);
    for (; filled + length <= LONG; filled += length)
        memcpy(at(trace) + filled, written, length);
    call(trace, report, TONGSPARKLE_TOO_MANY_EVENTS, MOST_PROCESSES, "10 MB of events");
    for (unsigned p = 0; p < MOST_PROCESSES; p++) {
        check(events(at(report), p) == MOST_EVENTS, "the most events were accepted");
        check(number(at(report) + TONGSPARKLE_ROW * p + TONGSPARKLE_REACH) == (1u << MOST_PROCESSES) - 1, "all were heard");
    }
    free(trace.start), free(report.start);
}

static void prefixes(void)
{
    static const size_t ends[] = {17, 22, 27, 32, 37, 41}; /* where the events of document 01's trace end; its opening ends at 12 */
    for (size_t size = 0; size <= two.size; size++) {
        struct block trace = exactly(two.trace, size), report = block(0, TONGSPARKLE_ROOM);
        unsigned n = size < 12 ? 0 : 2;
        uint32_t accepted = 0;
        while (accepted < 6 && ends[accepted] <= size)
            accepted++;
        call(trace, report, size < two.size ? TONGSPARKLE_ENDS_INSIDE : TONGSPARKLE_OK, n, "a prefix of document 01's trace");
        for (unsigned p = 0; p < n; p++)
            check(events(at(report), p) == accepted, "a prefix has as many events as it has whole event records");
        check(accepted < 6 || rows_are(at(report), 2, two.rows), "a prefix with all events has document 01's rows");
        free(trace.start), free(report.start);
    }
}

/* Each byte of document 01's trace with each value. Whatever the number is, it is one of a trace, and the two rows are there or nothing is. */
static void changed_bytes(void)
{
    for (size_t i = 0; i < two.size; i++) {
        int numbers = 1, reports = 1;
        for (unsigned x = 0; x < 256; x++) {
            struct block trace = exactly(two.trace, two.size), report = block(0, TONGSPARKLE_ROOM);
            at(trace)[i] = (uint8_t)x;
            numbers = numbers && tongsparkle_replay(at(trace), trace.size, at(report), report.size) <= TONGSPARKLE_BYTES_BEHIND;
            int rows = events(at(report), 0) <= 6 && events(at(report), 0) == events(at(report), 1);
            reports = reports && others_stay(report, 2) && (rows || others_stay(report, 0));
            free(trace.start), free(report.start);
        }
        check(numbers, "a trace with one byte changed has a number of a trace");
        check(reports, "a trace with one byte changed has two rows or none");
    }
}

/* ---- threads: each has its own trace and report, of another number of processes, and takes long enough for the others to be there too */
static pthread_barrier_t all_are_there;

static void *calls(void *given)
{
    const struct night *night = given;
    struct block trace = exactly(night->trace, night->size), report = block(0, TONGSPARKLE_ROOM);
    int same = 1;
    pthread_barrier_wait(&all_are_there);
    for (int k = 0; k < CALLS; k++) {
        fill(report);
        same = same && tongsparkle_replay(at(trace), trace.size, at(report), report.size) == TONGSPARKLE_OK
               && rows_are(at(report), night->n, night->rows) && others_stay(report, night->n);
    }
    same = same && memcmp(at(trace), night->trace, night->size) == 0;
    free(trace.start), free(report.start);
    return same ? given : NULL;
}

static void threads(void)
{
    pthread_t started[THREADS];
    if (pthread_barrier_init(&all_are_there, NULL, THREADS) != 0)
        exit(2);
    for (int k = 0; k < THREADS; k++)
        if (pthread_create(&started[k], NULL, calls, &of_thread[k]) != 0) {
            fputs("no thread\n", stderr);
            exit(2);
        }
    for (int k = 0; k < THREADS; k++) {
        void *same = NULL;
        check(pthread_join(started[k], &same) == 0 && same != NULL, "every call of a thread gives what a call alone gives");
    }
    pthread_barrier_destroy(&all_are_there);
}

/* ---- a wrong call. The trace lacks the last byte of its step; the report lacks the last byte of its last row */
static int wrong_call(const char *which)
{
    int of_trace = strcmp(which, "trace") == 0;
    struct block trace = of_trace ? exactly(two.trace, 40) : exactly(most.trace, most.size);
    struct block report = block(0, of_trace ? TONGSPARKLE_ROOM : TONGSPARKLE_ROOM - 1);
    tongsparkle_replay(at(trace), of_trace ? 41 : trace.size, at(report), TONGSPARKLE_ROOM);
    printf("a wrong call was not seen: %s\n", which);
    free(trace.start), free(report.start);
    return 0;
}

int main(int words, char **word)
{
    night_of_two(&two);
    night_in_step(&most, MOST_PROCESSES, 1);
    for (unsigned k = 0; k < THREADS; k++)
        night_in_step(&of_thread[k], MOST_PROCESSES / THREADS * (k + 1), 200 / (k + 1));
    if (words == 2)
        return wrong_call(word[1]);
    empty_traces();
    empty_reports();
    alignments();
    long_report(&two);
    long_report(&most);
    long_zeros();
    long_random();
    long_events();
    prefixes();
    changed_bytes();
    threads();
    return told();
}
