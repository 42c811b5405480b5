/* Every day of 2000 to 2099, in order, as a number YYYYMMDD.  The days are
   listed by counting on, so that nothing of a closed form is shared with the
   programs under test. */
#ifndef HOST_DAYS_H
#define HOST_DAYS_H

#include <stddef.h>
#include <stdint.h>

enum { DAYS = 36525 };

/* The day at a place from 0 to DAYS - 1. */
uint64_t day_at(size_t place);

/* The same day in six digits DDMMRR. */
uint64_t short_day_at(size_t place);

/* The last day of the month of a day. */
size_t month_end(size_t place);

/* The same day of the next month, or that month's last day if it is shorter; the
   last day of all where the next month is none of these. */
size_t month_ahead(size_t place);

#endif
