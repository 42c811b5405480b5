/* What the generators of files and of batches draw alike. */
#ifndef HOST_DRAWS_H
#define HOST_DRAWS_H

#include <stdbool.h>
#include <stddef.h>

#include "dice.h"

enum { MOST_DRAWN = 320 }; /* items of one group */

/* How many account files, groups in each and items in each of these. */
struct shape {
    unsigned files, groups, items;
};

struct shape draw_shape(struct dice *d);

/* Draws the amounts of a group's items and gives back their sum.  It is seldom
   past the limit, and then by little.  The count may be changed to reach it. */
uint64_t draw_amounts(struct dice *d, unsigned sheet, uint64_t *amounts,
                      unsigned *count);

/* An interval with a number for each account file on K, any on the others. */
void draw_interval(struct dice *d, unsigned sheet, unsigned files,
                   unsigned *from, unsigned *to);

/* Any byte that a name may have. */
uint8_t draw_name_byte(struct dice *d);

/* A place in the list of days. */
size_t draw_today(struct dice *d);

/* A day that may be due, often at an end of these days.  `each` is what
   judges_each says of the account file's kind. */
size_t draw_due_day(struct dice *d, unsigned sheet, bool each, size_t today);

/* A day just inside or outside of those that may be due. */
size_t draw_near_day(struct dice *d, unsigned sheet, bool each, size_t today);

/* A kind of account file that the sheet has, often one that is judged at each
   item. */
unsigned draw_kind(struct dice *d, unsigned sheet);

/* A payee's bank. */
uint64_t draw_bank(struct dice *d);

/* The sheet's own bank, or one that is not. */
uint64_t draw_own_or_other(struct dice *d, unsigned sheet, bool own);

/* The arguments of a call: mostly these, at times another sheet, or a number
   that is no sheet or day at all. */
void draw_arguments(struct dice *d, unsigned sheet, size_t today,
                    uint64_t *sheet_out, uint64_t *today_out);

#endif
