/* One of the calls that take a register, made by the library and by the second
   program: the whole answer, the rows, the register and the bytes around
   both. */
#ifndef HOST_ASK_REGISTER_H
#define HOST_ASK_REGISTER_H

#include "../call/call.h"
#include "../generate/limits.h"
#include "../generate/registers.h"

/* How often each call gave each number, on each sheet; sheet 0 is no sheet, and
   also stands for the calls that take none. */
extern unsigned long register_counts[CALLS][LAST_SHEET + 1][NUMBERS];

/* Why a register was refused with 23; one that is not ill is for another
   date. */
extern unsigned long ill_counts[CALLS][ILLS];

/* Why a number was not taken back: it is free, its bit is one of the 24, it has
   no bit, or it would have one if the bits above were lost. */
enum { IS_FREE, IS_STRAY, HAS_NO_BIT, IS_WIDE, NOT_TAKEN_CAUSES };
extern unsigned long not_taken_counts[NOT_TAKEN_CAUSES];

/* What the library answered, and what it left in the lent bytes. */
struct left {
    struct outcome answer;
    const uint8_t *rows, *reg;
};

/* Makes the call, with room for so many bytes of rows.  The register of the
   call is lent as a copy.  What is left stays until the next call. */
struct left ask_register(const char *what, uint64_t seed, const struct call *c,
                         size_t room);

#endif
