/* The sheet in C: reads a trace from standard input and prints what document 01 says under 'The sheet, printed whole', byte for byte. It is the peer
   of the proved program of that name, written as one would write it by hand, on the reader of reader.h; nothing of it is proved. It ends with status
   0 wherever a sheet was printed, whatever number that has, and with 1 where the input could not be read or the output not written. */
#include <stdlib.h>
#include <unistd.h>

#include "reader.h"

/* LONGEST is above the length of any line: a w line with every number at its limit has fewer than 50 bytes. */
enum { INPUT = 65536, OUTPUT = 65536, LONGEST = 64 };

static char output[OUTPUT];
static size_t used;

static void flush(void)
{
    for (size_t from = 0; from < used;) {
        ssize_t written = write(STDOUT_FILENO, output + from, used - from);
        if (written < 0)
            exit(1);
        from += (size_t)written;
    }
    used = 0;
}

/* Each of these writes at the place it is given and gives the place behind; a field comes with the space before it. */

static char *begin_line(char letter)
{
    if (OUTPUT - used < LONGEST)
        flush();
    output[used] = letter;
    return output + used + 1;
}

static void end_line(char *at)
{
    *at++ = '\n';
    used = (size_t)(at - output);
}

static char *decimal(char *at, uint32_t x)
{
    char digits[10], *first = digits + sizeof digits;
    do {
        *--first = (char)('0' + x % 10);
        x /= 10;
    } while (x);
    *at++ = ' ';
    while (first < digits + sizeof digits)
        *at++ = *first++;
    return at;
}

static char *hex(char *at, uint32_t set)
{
    *at++ = ' ';
    for (int shift = 12; shift >= 0; shift -= 4)
        *at++ = "0123456789abcdef"[set >> shift & 15];
    return at;
}

static char *perhaps(char *at, uint32_t there, uint32_t x)
{
    if (there)
        return decimal(at, x);
    *at++ = ' ';
    *at++ = '-';
    return at;
}

static void h_line(uint32_t p, uint32_t round, uint32_t heard)
{
    char *at = begin_line('h');
    at = decimal(at, p);
    at = decimal(at, round);
    end_line(hex(at, heard));
}

static void w_line(uint32_t *run, uint32_t p)
{
    const uint32_t *s = line(run, p);
    settle(run, p);
    char *at = begin_line('w');
    at = decimal(at, p);
    at = decimal(at, s[ROUND]);
    for (int k = 0; k < 4; k++)
        at = decimal(at, s[COUNTS + k]);
    end_line(hex(at, s[REACH]));
}

static void v_line(uint32_t *run, uint32_t p)
{
    const uint32_t *s = line(run, p);
    char *at = begin_line('v');
    at = decimal(at, p);
    at = decimal(at, s[VALUE]);
    at = perhaps(at, s[VOTED], s[VOTE]);
    end_line(perhaps(at, s[DECIDED], s[DECISION]));
}

/* Replays all of standard input and gives its number. What is there of a cut record, which is far less than INPUT bytes, goes to the front, and the
   next bytes come behind it. */
static uint32_t replay(uint32_t *run)
{
    static uint8_t input[INPUT];
    size_t kept = 0;
    uint32_t number = CUT;
    for (;;) {
        ssize_t got = read(STDIN_FILENO, input + kept, INPUT - kept);
        if (got < 0)
            exit(1);
        if (got == 0)
            return number;
        const uint8_t *from = input, *end = input + kept + got;
        if (number == CUT)
            number = records(run, &from, end, h_line);
        if (number == READ_TO_THE_END && from != end)
            return BYTES_BEHIND;
        if (number != READ_TO_THE_END && number != CUT)
            return number;
        kept = (size_t)(end - from);
        memmove(input, from, kept);
    }
}

int main(void)
{
    static uint32_t run[RUN];
    uint32_t number = replay(run);
    for (uint32_t p = 0; p < run[SIZE]; p++)
        w_line(run, p);
    for (uint32_t p = 0; p < run[SIZE]; p++)
        v_line(run, p);
    end_line(decimal(decimal(begin_line('e'), run[EVENTS]), number));
    flush();
    return 0;
}
