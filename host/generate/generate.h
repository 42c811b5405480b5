/*
 * Files of every sheet, valid in many spellings or damaged, and the arguments
 * to read them with.  A seed gives the same file on every machine.
 */
#ifndef HOST_GENERATE_H
#define HOST_GENERATE_H

#include "text.h"

struct made {
    struct text file;
    uint64_t sheet, today;
};

/* Makes a file of its own for each seed; of any sheet, or of this one. */
void generate(struct made *made, uint64_t seed);
void generate_on(struct made *made, uint64_t seed, unsigned sheet);

#endif
