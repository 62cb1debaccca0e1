/* The reading in C, written by hand for speed: what the proved one is measured against. It makes the same check of the
 * table each time; tuned_test.c holds the two together. */
#include "tuned.h"
#include "tuned_table.h"

/* Number and whole are stored as one word: gcc takes the struct over the stack to the registers that it is returned in,
 * and a load of a word that was just stored in two halves has to wait. */
static inline struct tagobrelin_reading reading_of(int32_t number, uint32_t whole, float value)
{
    struct tagobrelin_reading reading;
    put_word(&reading, (uint32_t)number | (uint64_t)whole << 32);
    reading.value = value;
    return reading;
}

static inline struct tagobrelin_reading two_octet(uint32_t high, uint32_t low)
{
    int32_t mantissa = (int32_t)((high & 7) << 8 | low) - (int32_t)(high >> 7 << 11);
    if (RARELY((high << 8 | low) == 0x7fff))
        return reading_of(TAGOBRELIN_UNREADABLE, 0, 0);
    return reading_of(TAGOBRELIN_TWO_OCTET, 0, (float)(mantissa * (1 << (high >> 3 & 15))) / 100);
}

static inline struct tagobrelin_reading single(const uint8_t *four)
{
    uint32_t bits = __builtin_bswap32(half_word(four));
    float value;
    if (RARELY((bits & 0x7f800000) == 0x7f800000))
        return reading_of(TAGOBRELIN_UNREADABLE, 0, 0);
    memcpy(&value, &bits, sizeof value);
    return reading_of(TAGOBRELIN_SINGLE, 0, value);
}

#define OF(dpt, typecode) ((dpt) << 8 | (typecode))

struct tagobrelin_reading tuned_read(uint16_t id, const datapoint *datapoints, size_t datapoint_count)
{
    if (RARELY(!datapoints_are_well_formed(datapoints, datapoint_count)))
        return reading_of(TAGOBRELIN_BAD_TABLE, 0, 0);
    size_t place = datapoint_place(datapoints, datapoint_count, id);
    const datapoint *d = datapoints + place;
    if (RARELY(place == datapoint_count) || RARELY(d->id != id))
        return reading_of(TAGOBRELIN_ABSENT, 0, 0);
    if (d->state & 0x10)
        switch (OF(d->dpt, d->typecode)) {
        case OF(1, 0):
            return reading_of(TAGOBRELIN_SWITCH, d->value[0], 0);
        case OF(5, 7):
            return reading_of(TAGOBRELIN_COUNT, d->value[0], 0);
        case OF(9, 8):
            return two_octet(d->value[0], d->value[1]);
        case OF(14, 10):
            return single(d->value);
        }
    return reading_of(TAGOBRELIN_UNREADABLE, 0, 0);
}
