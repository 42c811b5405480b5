#include "balance.h"

#include <inttypes.h>
#include <stdio.h>

static const int64_t part = INT64_C(100000000000000);

void add_signed(struct balance *b, int64_t haler)
{
    b->high += haler / part;
    b->low += haler % part;
    if (b->low < 0) {
        b->low += part;
        b->high--;
    }
    if (b->low >= part) {
        b->low -= part;
        b->high++;
    }
}

struct balance balance_of(int64_t haler)
{
    struct balance b = {0, 0};
    add_signed(&b, haler);
    return b;
}

void spell_balance(char text[BALANCE_ROOM], struct balance b)
{
    const char *sign = b.high < 0 ? "-" : "";
    if (b.high < 0) { /* the same without its sign: low counts down from the next part */
        b.high = b.low > 0 ? -b.high - 1 : -b.high;
        b.low = b.low > 0 ? part - b.low : 0;
    }
    if (b.high > 0)
        snprintf(text, BALANCE_ROOM, "%s%" PRId64 "%012" PRId64 ".%02" PRId64, sign, b.high, b.low / 100, b.low % 100);
    else
        snprintf(text, BALANCE_ROOM, "%s%" PRId64 ".%02" PRId64, sign, b.low / 100, b.low % 100);
}
