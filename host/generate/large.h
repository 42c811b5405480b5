/* Files at and over the limits on counts: item 100,000 of an account file, item
   1,001 of an S file, account file 1,001. */
#ifndef HOST_LARGE_H
#define HOST_LARGE_H

#include <stdbool.h>

#include "generate.h"

/* A file of so many account files, each of so many groups, each of so many
   items; items as short as can be, lines ended by LF, totals right. */
struct bulk {
    uint64_t files, groups, items;
    uint64_t amount;      /* of each item; 0: 1 */
    const char *behind;   /* what stands behind the last item; NULL: the closing
                             lines that are due */
};
void make_bulk(struct made *made, unsigned sheet, const struct bulk *bulk);

/* A file of K with two account files of these numbers, in their first three
   digits: the second is refused exactly if it is the first again. */
void make_pair(struct made *made, unsigned first, unsigned second);

/* The second numbers to be tried with a first one: itself, neighbours, and what
   shares some of its bits. */
enum { PARTNERS = 6 };
unsigned partner_of(unsigned first, unsigned which);

/* Makes the file at a place from 0 on; false behind the last one. */
bool large_file(struct made *made, unsigned sheet, unsigned place);

#endif
