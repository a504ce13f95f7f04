/* The C call, as often as it is asked for: a room, a length, the bytes of a report before the call and those of a trace come in by standard input; the
   number, whether all other bytes stayed as they were, and the report's bytes after the call go out by standard output.

   Trace and report each end at a page that may not be touched, so that a byte read or written behind them ends the program; the bytes before them,
   and the trace, are looked at. */

#include <stdio.h>
#include <string.h>
#include <sys/mman.h>

#include "frames.h"
#include "tongsparkle.h"

enum { BEFORE = 64, MARK = 0xA5 };

/* The end of LONGEST bytes and BEFORE more; the page behind it may not be touched. */
static uint8_t *guarded_end(void)
{
    size_t page = (size_t)sysconf(_SC_PAGESIZE);
    size_t inner = (LONGEST + BEFORE + page - 1) / page * page;
    uint8_t *start = mmap(NULL, inner + page, PROT_READ | PROT_WRITE, MAP_PRIVATE | MAP_ANONYMOUS | MAP_NORESERVE, -1, 0);
    if (start == MAP_FAILED || mprotect(start + inner, page, PROT_NONE) != 0) {
        perror("guarded memory");
        exit(2);
    }
    return start + inner;
}

static int marked(const uint8_t *behind)
{
    for (int i = 1; i <= BEFORE; i++)
        if (*(behind - i) != MARK)
            return 0;
    return 1;
}

int main(void)
{
    uint8_t *report_end = guarded_end(), *trace_end = guarded_end();
    uint8_t *copy = malloc(LONGEST);
    if (copy == NULL)
        return 2;
    for (;;) {
        size_t room = get_size(0), length = get_size(0);
        uint8_t *report = report_end - room, *trace = trace_end - length;
        memset(report - BEFORE, MARK, BEFORE);
        memset(trace - BEFORE, MARK, BEFORE);
        get(0, report, room);
        get(0, trace, length);
        memcpy(copy, trace, length);
        uint32_t number = tongsparkle_replay(trace, length, report, room);
        put_number(1, number);
        put_number(1, marked(report) && marked(trace) && memcmp(copy, trace, length) == 0);
        put(1, report, room);
    }
}
