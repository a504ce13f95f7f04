/* The monitoring service's side of the call, as a test: document 01's example, every number 0 to 14, and every byte that must stay as it was.

   Trace and report each end at a page that may not be touched, so that a byte read or written behind them ends the program; the bytes before the
   report are looked at. Says 'N passed, M failed', and exits with 0 only where nothing failed. */

#include <string.h>
#include <sys/mman.h>
#include <unistd.h>

#include "records.h"

/* ---- size bytes, the last of them the last of its page; the page behind it may not be touched. Before them stand BEFORE bytes and more, all 0 */
enum { BEFORE = 64 };

static uint8_t *guarded(size_t size)
{
    size_t page = (size_t)sysconf(_SC_PAGESIZE);
    size_t inner = (size + BEFORE + page - 1) / page * page;
    uint8_t *start = mmap(NULL, inner + page, PROT_READ | PROT_WRITE, MAP_PRIVATE | MAP_ANONYMOUS, -1, 0);
    if (start == MAP_FAILED || mprotect(start + inner, page, PROT_NONE) != 0) {
        perror("guarded memory");
        exit(2);
    }
    return start + inner - size;
}

/* ---- a call: every byte of the report is 0xA5 before it, and must be so afterwards but for the rows of n processes */
static uint8_t *report;

static uint32_t field(unsigned p, unsigned at)
{
    return number(report + TONGSPARKLE_ROW * p + at);
}

static void call(size_t room, uint32_t wanted, unsigned n, const char *what)
{
    uint8_t *trace = guarded(length);
    memcpy(trace, written, length);
    report = guarded(room);
    memset(report, 0xA5, room);
    uint32_t given = tongsparkle_replay(trace, length, report, room);
    if (given != wanted)
        printf("%s: %u, not %u\n", what, (unsigned)given, (unsigned)wanted);
    check(given == wanted, what);
    check(memcmp(trace, written, length) == 0, "the trace stays as it was");
    int stays = 1;
    for (size_t i = (size_t)TONGSPARKLE_ROW * n; i < room; i++)
        stays = stays && report[i] == 0xA5;
    check(stays, "all bytes behind the rows stay as they were");
    int before = 1;
    for (int i = 1; i <= BEFORE; i++)
        before = before && *(report - i) == 0;
    check(before, "the bytes before the report stay as they were");
    for (unsigned p = 0; p < n; p++)
        check(field(p, TONGSPARKLE_ROUND) >= 1, "a row that is written has a round");
}

static void row(unsigned p, uint32_t round, uint32_t s, uint32_t c, uint32_t w, uint32_t i, uint32_t reach, const char *what)
{
    check(field(p, TONGSPARKLE_ROUND) == round && field(p, TONGSPARKLE_SENDING) == s && field(p, TONGSPARKLE_COLLECTING) == c
              && field(p, TONGSPARKLE_PENDING) == w && field(p, TONGSPARKLE_IDLE) == i && field(p, TONGSPARKLE_REACH) == reach,
          what);
}

static void example_rows(void)
{
    row(0, 2, 2, 2, 1, 1, 3, "document 01's w line of process 0");
    row(1, 1, 6, 0, 0, 0, 2, "document 01's w line of process 1");
}

/* The names of the header are document 01's numbers, and so is what the tests know by name. */
static void names(void)
{
    const int numbers[] = {
        TONGSPARKLE_OK, TONGSPARKLE_BAD_SIZE, TONGSPARKLE_NO_PROCESS, TONGSPARKLE_ALREADY_SENT, TONGSPARKLE_TOO_FAR_AHEAD,
        TONGSPARKLE_NOTHING_IN_TRANSIT, TONGSPARKLE_NOT_SENT_TO_ALL, TONGSPARKLE_LAST_ROUND, TONGSPARKLE_TOO_MANY_EVENTS,
        TONGSPARKLE_ENDS_INSIDE, TONGSPARKLE_UNKNOWN_TAG, TONGSPARKLE_WRONG_LENGTH, TONGSPARKLE_WRONG_PLACE, TONGSPARKLE_BYTES_BEHIND,
        TONGSPARKLE_NO_ROOM,
    };
    for (int k = 0; k <= 14; k++)
        check(numbers[k] == k, "a name of the header has its number");
    check(TONGSPARKLE_ROOM == 384 && TONGSPARKLE_ROW == 24, "the room of a report, and of a row");
    check(MOST_PROCESSES == 16 && WINDOW == 8 && LAST_ROUND == 65535 && MOST_EVENTS == 1000000, "the limits of a run");
}

int main(void)
{
    names();

    /* 0, with just enough room and with more */
    example(), end();
    call(TONGSPARKLE_ROOM, TONGSPARKLE_OK, 2, "document 01's trace");
    example_rows();
    call(5000, TONGSPARKLE_OK, 2, "document 01's trace, with room to spare");
    example_rows();

    /* 14 comes first, and leaves every byte */
    call(TONGSPARKLE_ROOM - 1, TONGSPARKLE_NO_ROOM, 0, "room for two rows, but not for all");
    call(0, TONGSPARKLE_NO_ROOM, 0, "no room at all");
    length = 0;
    call(10, TONGSPARKLE_NO_ROOM, 0, "too little room is found before the empty trace");

    /* no opening: nothing is written */
    call(TONGSPARKLE_ROOM, TONGSPARKLE_ENDS_INSIDE, 0, "an empty trace");
    opening(0, 0), end();
    call(TONGSPARKLE_ROOM, TONGSPARKLE_BAD_SIZE, 0, "no process");
    opening(MOST_PROCESSES + 1, 0), end();
    call(TONGSPARKLE_ROOM, TONGSPARKLE_BAD_SIZE, 0, "one process too many");
    opening(255, 0), end();
    call(TONGSPARKLE_ROOM, TONGSPARKLE_BAD_SIZE, 0, "as many processes as a byte can say");
    length = 0, send(0, 0);
    call(TONGSPARKLE_ROOM, TONGSPARKLE_WRONG_PLACE, 0, "an event first");
    length = 0, head(0x55, 0);
    call(TONGSPARKLE_ROOM, TONGSPARKLE_UNKNOWN_TAG, 0, "an unknown tag first");
    length = 0, head(0x01, 0);
    call(TONGSPARKLE_ROOM, TONGSPARKLE_WRONG_LENGTH, 0, "an opening of length 0");
    opening(3, 1), length--;
    call(TONGSPARKLE_ROOM, TONGSPARKLE_ENDS_INSIDE, 0, "an opening that lacks its last byte");

    /* a refusal leaves the report of what was accepted before it */
    example(), send(2, 0), end();
    call(TONGSPARKLE_ROOM, TONGSPARKLE_NO_PROCESS, 2, "a process that is not there");
    example_rows();
    example(), send(1, 0), end();
    call(TONGSPARKLE_ROOM, TONGSPARKLE_ALREADY_SENT, 2, "sent already");
    example_rows();
    example(), receive(1, 1), end();
    call(TONGSPARKLE_ROOM, TONGSPARKLE_NOTHING_IN_TRANSIT, 2, "nothing in transit");
    example_rows();
    example(), step(1), end();
    call(TONGSPARKLE_ROOM, TONGSPARKLE_NOT_SENT_TO_ALL, 2, "a step before sending to all");
    example_rows();
    example();
    call(TONGSPARKLE_ROOM, TONGSPARKLE_ENDS_INSIDE, 2, "no end record");
    example_rows();
    example(), head(0x10, 2), byte(0);
    call(TONGSPARKLE_ROOM, TONGSPARKLE_ENDS_INSIDE, 2, "half a record");
    example_rows();
    example(), head(0x14, 0), end();
    call(TONGSPARKLE_ROOM, TONGSPARKLE_UNKNOWN_TAG, 2, "an unknown tag");
    example_rows();
    example(), head(0x12, 2), byte(0), byte(0), end();
    call(TONGSPARKLE_ROOM, TONGSPARKLE_WRONG_LENGTH, 2, "a step of two bytes");
    example_rows();
    example(), head(0x01, 1), byte(0), end();
    call(TONGSPARKLE_ROOM, TONGSPARKLE_WRONG_PLACE, 2, "a second opening");
    example_rows();
    example(), end(), byte(0);
    call(TONGSPARKLE_ROOM, TONGSPARKLE_BYTES_BEHIND, 2, "a byte behind the end record");
    example_rows();

    /* 4: process 0 is a whole window ahead of process 1, which is at round 1; a round of its own is two sends and a step */
    opening(2, 7);
    for (int r = 1; r <= WINDOW; r++)
        broadcast(0), step(0);
    send(0, 1), end();
    call(TONGSPARKLE_ROOM, TONGSPARKLE_TOO_FAR_AHEAD, 2, "a lead of a whole window");
    row(0, 1 + WINDOW, 2 * WINDOW, WINDOW, 0, 0, 1, "process 0 a window ahead");
    row(1, 1, 3 * WINDOW, 0, 0, 0, 2, "process 1 has not sent");

    /* 7: alone, up to the last round */
    opening(1, 7);
    for (unsigned r = 1; r < LAST_ROUND; r++)
        broadcast(0), step(0);
    broadcast(0), step(0), end();
    call(TONGSPARKLE_ROOM, TONGSPARKLE_LAST_ROUND, 1, "a step from the last round");
    row(0, LAST_ROUND, LAST_ROUND, LAST_ROUND - 1, 0, 0, 1, "alone at the last round");

    /* 8: the most processes; in a round each of them sends to all and steps. One round more than there can be */
    opening(MOST_PROCESSES, 100);
    for (int r = 0; r <= MOST_EVENTS / (MOST_PROCESSES * (MOST_PROCESSES + 1)); r++) {
        for (unsigned p = 0; p < MOST_PROCESSES; p++)
            broadcast(p);
        for (unsigned p = 0; p < MOST_PROCESSES; p++)
            step(p);
    }
    end();
    call(TONGSPARKLE_ROOM, TONGSPARKLE_TOO_MANY_EVENTS, MOST_PROCESSES, "more events than there may be");
    for (unsigned p = 0; p < MOST_PROCESSES; p++) {
        uint32_t sum = field(p, TONGSPARKLE_SENDING) + field(p, TONGSPARKLE_COLLECTING) + field(p, TONGSPARKLE_PENDING) + field(p, TONGSPARKLE_IDLE);
        check(sum == field(0, TONGSPARKLE_SENDING) + field(0, TONGSPARKLE_COLLECTING) + field(0, TONGSPARKLE_PENDING) + field(0, TONGSPARKLE_IDLE),
              "every process has as many events");
        check(sum <= MOST_EVENTS && sum + MOST_PROCESSES > MOST_EVENTS, "as many as there may be, but for those of one broadcast");
        check(field(p, TONGSPARKLE_REACH) == 1u << p, "nobody was heard");
    }

    return told();
}
