/* Sums of haler with a sign and without a limit: a statement may have more movements than 64 bits hold, and between them its balance
   may be more than its ends say. */
#ifndef HOST_COMMON_BALANCE_H
#define HOST_COMMON_BALANCE_H

#include <stdint.h>

/* high * 10^14 + low, where low is never below zero. */
struct balance {
    int64_t high, low;
};

struct balance balance_of(int64_t haler);

/* Adds so many haler, of any sign. */
void add_signed(struct balance *b, int64_t haler);

/* Crowns with two digits behind a point and, if below zero, a minus in front, as "-81340.70". */
enum { BALANCE_ROOM = 48 };
void spell_balance(char text[BALANCE_ROOM], struct balance b);

#endif
