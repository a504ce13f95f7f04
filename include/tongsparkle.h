/* Tongsparkle: the replay of a recorded night, for a monitoring service in C.

   Link with libtongsparkle.a. The library calls nothing but memset, keeps nothing between calls, and takes some 40 KB of stack; any number of
   threads may call it at a time. */

#ifndef TONGSPARKLE_H
#define TONGSPARKLE_H

#include <stddef.h>
#include <stdint.h>

#ifdef __cplusplus
extern "C" {
#endif

/* The room that a report needs, whatever the trace says: 16 rows. */
#define TONGSPARKLE_ROOM 384

/* A process has a row of six numbers, four bytes each, the most significant byte first: */
#define TONGSPARKLE_ROW 24
#define TONGSPARKLE_ROUND 0       /* its round, from 1 on */
#define TONGSPARKLE_SENDING 4     /* S: at how many accepted events it had not yet sent to all */
#define TONGSPARKLE_COLLECTING 8  /* C: it had, and a message for its round was in transit to it */
#define TONGSPARKLE_PENDING 12    /* P: it had, none was in transit, and it had not heard from all */
#define TONGSPARKLE_IDLE 16       /* I: it had sent to all and heard from all */
#define TONGSPARKLE_REACH 20      /* its reach set: process k is bit k */

/* What is given back. Refused means: by the record at which the reading stopped. */
enum tongsparkle_number {
    TONGSPARKLE_OK = 0,                  /* the trace was read to its end */
    TONGSPARKLE_BAD_SIZE = 1,            /* N is 0 or above 16 */
    TONGSPARKLE_NO_PROCESS = 2,          /* a process number is N or more */
    TONGSPARKLE_ALREADY_SENT = 3,        /* sent to that process already this round */
    TONGSPARKLE_TOO_FAR_AHEAD = 4,       /* the sender's lead is 8 */
    TONGSPARKLE_NOTHING_IN_TRANSIT = 5,  /* no such message in transit */
    TONGSPARKLE_NOT_SENT_TO_ALL = 6,     /* step before sending to all */
    TONGSPARKLE_LAST_ROUND = 7,          /* step at round 65,535 */
    TONGSPARKLE_TOO_MANY_EVENTS = 8,     /* accepted events would pass 1,000,000 */
    TONGSPARKLE_ENDS_INSIDE = 9,         /* the trace ends inside a record or without an end record */
    TONGSPARKLE_UNKNOWN_TAG = 10,        /* tag unknown */
    TONGSPARKLE_WRONG_LENGTH = 11,       /* length wrong for the tag */
    TONGSPARKLE_WRONG_PLACE = 12,        /* the first record is not an opening, or a later one is */
    TONGSPARKLE_BYTES_BEHIND = 13,       /* bytes after the end record */
    TONGSPARKLE_NO_ROOM = 14             /* report_len is below 384 */
};

/* Replays trace and reports the waits of what was accepted.

   With N processes, the first 24 times N bytes of report become their rows, by process; every other byte stays as it was. A refused record does
   not undo this: the report is that of the events before it. Nothing at all is written where 14 is given, which is tested first, and where no
   opening was accepted: the numbers 1 and 12 at the first record, and 9, 10 or 11 there. A caller that has to tell these apart sets the first four
   bytes to 0 before the call: where a report was written they hold a round, and no round is 0.

   trace is only read; trace_len and report_len are their sizes in bytes, and either may be 0, but a pointer must then still be one that C
   allows, not NULL. The two must not overlap. */
uint32_t tongsparkle_replay(const uint8_t *trace, size_t trace_len, uint8_t *report, size_t report_len);

#ifdef __cplusplus
}
#endif

#endif
