/* How many files a test generates and from which seed on, as its arguments say:
   [FILES [SEED [STEP]]], file i having the seed SEED + i.  Of the large files
   and the corner files, which are always the same, every STEP-th is tried. */
#ifndef HOST_SEEDS_H
#define HOST_SEEDS_H

#include <stdbool.h>
#include <stdint.h>
#include <stdio.h>
#include <stdlib.h>

struct seeds {
    uint64_t count, first;
    unsigned step;
};

static inline struct seeds take_seeds(int argc, char **argv, uint64_t count)
{
    struct seeds s = {count, 1, 1};
    if (argc > 1)
        s.count = strtoull(argv[1], NULL, 10);
    if (argc > 2)
        s.first = strtoull(argv[2], NULL, 10);
    if (argc > 3 && strtoul(argv[3], NULL, 10) > 0)
        s.step = (unsigned)strtoul(argv[3], NULL, 10);
    return s;
}

/* The first of every STEP-th: with another seed or sheet it is another. */
static inline unsigned first_step(struct seeds s, unsigned sheet)
{
    return (unsigned)((s.first + sheet) % s.step);
}

/* Can it be asked of so many files that every answer has come?  Says so if
   not. */
static inline bool are_enough(struct seeds s, uint64_t enough)
{
    if (s.count < enough)
        printf("fewer than %llu files: that every answer came is not tested\n",
               (unsigned long long)enough);
    return s.count >= enough;
}

#endif
