/* The check of the datapoints and the search among them, for tuned.c and tuned_read.c: each is compiled with a copy of
 * its own. */
#ifndef TUNED_TABLE_H
#define TUNED_TABLE_H

#include <stdbool.h>

#include "tagobrelin.h"
#include "tuned_words.h"

typedef struct tagobrelin_datapoint datapoint;

/* by type code: the bits of a record's bytes 5 to 12 and 13 to 20 that have to be 0; those of the state and of the mark are among them */
static const uint64_t unused_low[15] = {0xfffffffffffffee0, 0xfffffffffffffce0, 0xfffffffffffff8e0, 0xfffffffffffff0e0, 0xffffffffffffe0e0,
                                        0xffffffffffffc0e0, 0xffffffffffff80e0, 0xffffffffffff00e0, 0xffffffffff0000e0, 0xffffffff000000e0,
                                        0xffffff00000000e0, 0xff000000000000e0, 0x00000000000000e0, 0x00000000000000e0, 0x00000000000000e0};
static const uint64_t unused_high[15] = {0xfeffffffffffffff, 0xfeffffffffffffff, 0xfeffffffffffffff, 0xfeffffffffffffff, 0xfeffffffffffffff,
                                         0xfeffffffffffffff, 0xfeffffffffffffff, 0xfeffffffffffffff, 0xfeffffffffffffff, 0xfeffffffffffffff,
                                         0xfeffffffffffffff, 0xfeffffffffffffff, 0xfeffffffffffff00, 0xfeffffffff000000, 0xfe00000000000000};

/* One record: unused bits are gathered in `bad`; the top bit of `rises` stays set while each ID is above the one before it. */
#define LOOK_AT_DATAPOINT(d)                                                                             \
    do {                                                                                                 \
        uint32_t t = (d)->typecode, id = (d)->id;                                                        \
        if (RARELY(t > 14))                                                                              \
            return false;                                                                                \
        bad |= (word(&(d)->state) & unused_low[t]) | (word(&(d)->value[7]) & unused_high[t]);            \
        rises &= last - id;                                                                              \
        last = id;                                                                                       \
    } while (0)

static inline bool datapoints_are_well_formed(const datapoint *d, size_t n)
{
    uint32_t last = 0, rises = 1u << 31;
    uint64_t bad = 0;
    if (RARELY(n > 1000))
        return false;
    for (; n >= 4; n -= 4, d += 4) {
        LOOK_AT_DATAPOINT(d);
        LOOK_AT_DATAPOINT(d + 1);
        LOOK_AT_DATAPOINT(d + 2);
        LOOK_AT_DATAPOINT(d + 3);
    }
    for (; n; n--, d++)
        LOOK_AT_DATAPOINT(d);
    return bad == 0 && rises != 0;
}

/* how many datapoints have a lower ID */
static inline size_t datapoint_place(const datapoint *table, size_t n, uint32_t id)
{
    const datapoint *at = table;
    if (RARELY(n == 0))
        return 0;
    while (n > 1) {
        size_t half = n / 2;
        at += at[half - 1].id < id ? half : 0;
        n -= half;
    }
    return (size_t)(at - table) + (at->id < id);
}

#endif
