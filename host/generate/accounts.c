#include "accounts.h"

/* By the table of weights, as the document has it. */
static bool weighs_right(uint64_t value)
{
    static const unsigned weights[] = {1, 2, 4, 8, 5, 10, 9, 7, 3, 6};
    unsigned sum = 0;
    for (unsigned i = 0; value != 0; value /= 10)
        sum += weights[i++] * (unsigned)(value % 10);
    return sum % 11 == 0;
}

/* A number of at most so many digits that is not 0.  Two digits hold one at
   least, and a number that weighs right has two digits that are not zero. */
static uint64_t draw_weighed(struct dice *d, unsigned digits)
{
    uint64_t most = 1, value;
    while (digits-- > 0)
        most *= 10;
    value = 1 + below(d, most - 1);
    while (!weighs_right(value))
        value = value + 1 < most ? value + 1 : 1;
    return value;
}

struct account_value draw_account(struct dice *d)
{
    /* The ones that document 01 names, and the least and greatest there are. */
    static const struct account_value known[] = {
        {19, 19}, {0, 5152046}, {174, 1999738514}, {500005, 2267100237},
        {0, 705}, {999993, 9999999999}, {0, 19},
    };
    struct account_value a = {0, 0};
    if (one_in(d, 8))
        return PICK(d, known);
    if (one_in(d, 2))
        a.prefix = draw_weighed(d, (unsigned)between(d, 2, 6));
    a.base = draw_weighed(d, (unsigned)between(d, 2, 10));
    return a;
}
