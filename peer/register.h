/* A day's register (request W-207) in lent bytes: a word with the creation
   date it is for, then a bit for each number.  Bytes behind it are not its
   own. */
#ifndef PEER_REGISTER_H
#define PEER_REGISTER_H

#include "bytes.h"
#include "days.h"

enum {
    REGISTER_BYTES = 136,
    REGISTER_NUMBERS = 1000,
    REGISTER_BITS = 1024 /* those that have no number stay 0 */
};

/* Words are little-endian, so their bits follow each other from byte to
   byte. */
static inline size_t number_byte(uint64_t n)
{
    return 8 + (size_t)(n / 8);
}

static inline uint8_t number_bit(uint64_t n)
{
    return (uint8_t)(1u << n % 8);
}

static inline bool number_is_marked(const uint8_t *reg, uint64_t n)
{
    return (reg[number_byte(n)] & number_bit(n)) != 0;
}

static inline void mark_number(uint8_t *reg, uint64_t n)
{
    reg[number_byte(n)] |= number_bit(n);
}

static inline void unmark_number(uint8_t *reg, uint64_t n)
{
    reg[number_byte(n)] &= (uint8_t)~number_bit(n);
}

/* Laid out as it should be?  The date counts too, as zero bytes that were never
   started would else be a register with every number free. */
static inline bool register_is_sound(struct bytes reg)
{
    if (reg.len < REGISTER_BYTES || !day_is_real(load_word(reg.data)))
        return false;
    for (uint64_t n = REGISTER_NUMBERS; n < REGISTER_BITS; n++)
        if (number_is_marked(reg.data, n))
            return false;
    return true;
}

static inline bool register_is_for(struct bytes reg, uint64_t date)
{
    return register_is_sound(reg) && load_word(reg.data) == date;
}

#endif
