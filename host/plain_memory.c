/* memcpy and memset for the programs whose instructions are counted: eight bytes at a time, the same on every machine. */
#include <stddef.h>
#include <stdint.h>

typedef uint64_t __attribute__((may_alias, aligned(1))) word;

void *memcpy(void *restrict to, const void *restrict from, size_t n)
{
    uint8_t *t = to;
    const uint8_t *f = from;
    for (; n >= 8; n -= 8, t += 8, f += 8)
        *(word *)t = *(const word *)f;
    for (; n; n--)
        *t++ = *f++;
    return to;
}

void *memset(void *to, int byte, size_t n)
{
    uint8_t *t = to;
    word filled = 0x0101010101010101u * (uint8_t)byte;
    for (; n >= 8; n -= 8, t += 8)
        *(word *)t = filled;
    for (; n; n--)
        *t++ = (uint8_t)byte;
    return to;
}
