/* Files of K of some account files, such as a register of the day's numbers is
   for: their numbers are right, used again or outside the interval, and what
   stands before and behind a number is right or wrong. */
#ifndef HOST_NUMBERED_H
#define HOST_NUMBERED_H

#include "generate.h"

/* Makes a file of its own for each seed. */
void generate_numbered(struct made *made, uint64_t seed);

/* One of these, or any of K, or any: most are of K, since no other sheet looks
   at a register. */
void generate_for_register(struct made *made, uint64_t seed);

#endif
