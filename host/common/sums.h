/* What a batch pays: items counted and their amounts added up without a limit, and both in words. */
#ifndef HOST_COMMON_SUMS_H
#define HOST_COMMON_SUMS_H

#include <stdio.h>

#include <abo.h>

/* A sum of haler in two parts, `high` counting 10^14: a file may pay more than 64 bits hold. */
struct sum {
    uint64_t high, low;
};

void add_haler(struct sum *s, uint64_t haler);

/* Crowns with two digits behind a point, as "81340.70". */
enum { SUM_ROOM = 48 };
void spell_sum(char text[SUM_ROOM], struct sum s);

/* "6 payments, 81340.70 crowns", "6 plateb, 81340,70 Kč"; with other kinds of account files each by its name: "1 payment, 5.00 crowns, 2
   collections, 7.00 crowns".  The language is an enum abo_language. */
void print_payments(FILE *to, uint64_t language, const union abo_row *rows, size_t count);

/* "1 warning", "2 warnings", "2 varování". */
void print_warnings(FILE *to, uint64_t language, uint64_t count);

/* "1 movement", "2 movements". */
void print_count(FILE *to, uint64_t count, const char *noun);

#endif
