/* How the tests in Rust and the programs beside it talk: numbers of four bytes, the least significant byte first, and bytes, all through pipes. */

#ifndef FRAMES_H
#define FRAMES_H

#include <stddef.h>
#include <stdint.h>
#include <stdlib.h>
#include <unistd.h>

/* The longest trace or report that may be asked about. */
enum { LONGEST = 16 << 20 };

/* Reads so many bytes; where the other side has nothing more to ask, that is the end. */
static inline void get(int from, uint8_t *to, size_t size)
{
    while (size > 0) {
        ssize_t came = read(from, to, size);
        if (came <= 0)
            _exit(came == 0 ? 0 : 3);
        to += came;
        size -= (size_t)came;
    }
}

static inline void put(int to, const uint8_t *from, size_t size)
{
    while (size > 0) {
        ssize_t went = write(to, from, size);
        if (went <= 0)
            _exit(3);
        from += went;
        size -= (size_t)went;
    }
}

static inline uint32_t get_number(int from)
{
    uint8_t b[4];
    get(from, b, sizeof b);
    return (uint32_t)b[3] << 24 | (uint32_t)b[2] << 16 | (uint32_t)b[1] << 8 | b[0];
}

static inline size_t get_size(int from)
{
    uint32_t size = get_number(from);
    if (size > LONGEST)
        _exit(4);
    return size;
}

static inline void put_number(int to, uint32_t number)
{
    uint8_t b[4] = {(uint8_t)number, (uint8_t)(number >> 8), (uint8_t)(number >> 16), (uint8_t)(number >> 24)};
    put(to, b, sizeof b);
}

#endif
