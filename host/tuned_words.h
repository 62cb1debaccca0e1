/* Bytes of memory taken as words, and a hint for jumps, for the files in C that were written for speed. */
#ifndef TUNED_WORDS_H
#define TUNED_WORDS_H

#include <stdint.h>
#include <string.h>

_Static_assert(__BYTE_ORDER__ == __ORDER_LITTLE_ENDIAN__, "the masks are those of a little-endian machine");

#define RARELY(fact) __builtin_expect(!!(fact), 0)

static inline uint64_t word(const void *at)
{
    uint64_t w;
    memcpy(&w, at, sizeof w);
    return w;
}

static inline uint32_t half_word(const void *at)
{
    uint32_t w;
    memcpy(&w, at, sizeof w);
    return w;
}

static inline uint32_t two_bytes_as_they_lie(const void *at)
{
    uint16_t w;
    memcpy(&w, at, sizeof w);
    return w;
}

static inline void put_word(void *at, uint64_t w)
{
    memcpy(at, &w, sizeof w);
}

#endif
