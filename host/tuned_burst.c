/* The reader of bursts in C, written by hand for speed: what the proved one is measured against. It makes the same
 * checks; tuned_test.c holds the two together.
 *
 * How it is made quick: it jumps from frame to frame by their lengths; the four bytes of a head are compared as one
 * word, checksum and last byte as another; the sum is taken over eight bytes at a time. Where the burst ends within a
 * frame, or in damage, is looked at once, in the end. */
#include "tuned.h"
#include "tuned_words.h"

enum {
    ACKNOWLEDGEMENT = 0xe5,
    DATA_HEAD = 0x68000068,  /* 68 L L 68 with L still 0, as a word */
    FIXED_HEAD = 0x16000010, /* 10 C C 16 with C still 0 */
    TWICE = 0x00010100,      /* times L or C: L L or C C at its place in these words */
    LAST_BYTE = 0x1600       /* the 16 behind a checksum */
};

/* The sum of 1 to 255 bytes behind a head, the carry beyond eight bits dropped. Words are summed as they are, and once
 * more without their odd bytes, in lanes of sixteen bits: what the two sums differ by is that of the odd bytes. The
 * last bytes, up to eight, are the upper ones of the word that ends with them: of four bytes and more it begins in the
 * head. */
static inline uint8_t sum_of(const uint8_t *at, size_t n)
{
    const uint64_t even = 0x00ff00ff00ff00ff;
    const uint8_t *end = at + n;
    uint64_t all = 0, evens = 0, w;
    if (RARELY(n < 4)) {
        for (; n; n--)
            all += *at++;
        return (uint8_t)all;
    }
    for (; n > 8; n -= 8, at += 8) {
        w = word(at);
        all += w;
        evens += w & even;
    }
    w = word(end - 8) >> (64 - 8 * n);
    all += w;
    evens += w & even;
    evens += (all - evens) >> 8;
    evens += evens >> 32;
    return (uint8_t)(evens + (evens >> 16));
}

/* How a burst ends in these bytes, with which no whole frame and no acknowledgement begins. */
static int32_t ending_of(const uint8_t *at, size_t left)
{
    if (left == 0)
        return TAGOBRELIN_CLEAN;
    if (at[0] == 0x10)
        return left < 3 || (left == 3 && at[2] == at[1]) ? TAGOBRELIN_UNFINISHED : TAGOBRELIN_DAMAGED;
    if (at[0] != 0x68 || (left > 1 && at[1] == 0) || (left > 2 && at[2] != at[1]) || (left > 3 && at[3] != 0x68))
        return TAGOBRELIN_DAMAGED;
    if (left == 1 || left < 5u + at[1])
        return TAGOBRELIN_UNFINISHED;
    return left == 5u + at[1] && at[left - 1] == sum_of(at + 4, at[1]) ? TAGOBRELIN_UNFINISHED : TAGOBRELIN_DAMAGED;
}

struct tagobrelin_burst tuned_read_burst(const uint8_t *burst, size_t byte_count, uint16_t *starts, size_t place_count)
{
    const uint8_t *at = burst;
    uint16_t *place = starts;
    size_t left = byte_count, acknowledgements = 0, size;
    if (RARELY(byte_count > TAGOBRELIN_LONGEST_BURST) || RARELY(place_count < TAGOBRELIN_LONGEST_BURST))
        return (struct tagobrelin_burst){TAGOBRELIN_BAD_BURST, 0, 0};
    for (; left; left -= size, at += size) {
        size = 1;
        if (*at == ACKNOWLEDGEMENT) {
            acknowledgements++;
        } else {
            if (RARELY(left < 4))
                break;
            uint32_t head = half_word(at), length = at[1];
            if (head == DATA_HEAD + length * TWICE) {
                size = length + 6;
                if (RARELY(length == 0) || RARELY(left < size) ||
                    RARELY(two_bytes_as_they_lie(at + size - 2) != sum_of(at + 4, length) + (uint32_t)LAST_BYTE))
                    break;
            } else {
                size = 4;
                if (RARELY(head != FIXED_HEAD + length * TWICE))
                    break;
            }
        }
        *place++ = (uint16_t)(byte_count - left);
    }
    size_t found = (size_t)(place - starts);
    return (struct tagobrelin_burst){ending_of(at, left), (uint16_t)(found - acknowledgements),
                                     (uint16_t)acknowledgements};
}
