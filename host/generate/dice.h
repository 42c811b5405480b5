/* A small random generator.  The same seed gives the same rolls on every
   machine, so a failed case can be made again from its seed alone.  For that no
   expression may roll twice without saying which roll comes first. */
#ifndef HOST_DICE_H
#define HOST_DICE_H

#include <stdbool.h>
#include <stdint.h>

struct dice {
    uint64_t state;
};

/* splitmix64: any state will do, also 0 and neighbouring seeds. */
static inline uint64_t roll(struct dice *d)
{
    uint64_t z = d->state += UINT64_C(0x9e3779b97f4a7c15);
    z = (z ^ z >> 30) * UINT64_C(0xbf58476d1ce4e5b9);
    z = (z ^ z >> 27) * UINT64_C(0x94d049bb133111eb);
    return z ^ z >> 31;
}

/* 0 to n - 1; that they are not quite alike does not matter here. */
static inline uint64_t below(struct dice *d, uint64_t n)
{
    return roll(d) % n;
}

static inline uint64_t between(struct dice *d, uint64_t least, uint64_t most)
{
    return least + below(d, most - least + 1);
}

/* Any number of bits, all of them equally often. */
static inline uint64_t roll_bits(struct dice *d)
{
    uint64_t bits = below(d, 64);
    return roll(d) >> bits;
}

static inline bool one_in(struct dice *d, uint64_t n)
{
    return below(d, n) == 0;
}

#define COUNT_OF(list) (sizeof(list) / sizeof *(list))
#define PICK(d, list) ((list)[below((d), COUNT_OF(list))])

#endif
