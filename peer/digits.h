/* Numbers spelled in digits, counted and put down. */
#ifndef PEER_DIGITS_H
#define PEER_DIGITS_H

#include <stddef.h>
#include <stdint.h>

static inline size_t digits_of(uint64_t value)
{
    size_t digits = 1;
    for (; value >= 10000; value /= 10000)
        digits += 4;
    return digits + (value >= 10) + (value >= 100) + (value >= 1000);
}

/* So many digits, with zeros in front; gives back the place behind them.  Two
   at a time, as each division waits for the one before. */
static inline uint8_t *put_padded(uint8_t *out, uint64_t value, size_t digits)
{
    size_t i = digits;
    for (; i >= 2; i -= 2, value /= 100) {
        unsigned pair = (unsigned)(value % 100);
        out[i - 1] = (uint8_t)('0' + pair % 10);
        out[i - 2] = (uint8_t)('0' + pair / 10);
    }
    if (i == 1)
        out[0] = (uint8_t)('0' + value % 10);
    return out + digits;
}

static inline uint8_t *put_number(uint8_t *out, uint64_t value)
{
    return put_padded(out, value, digits_of(value));
}

#endif
