#include "draws.h"
#include "limits.h"

/* Mostly small.  Now and then one of the three is large, so that lines are
   many at each level. */
struct shape draw_shape(struct dice *d)
{
    static const unsigned counts[] = {1, 1, 1, 1, 2, 2, 3};
    struct shape s;
    unsigned *const levels[] = {&s.files, &s.groups, &s.items};
    for (size_t i = 0; i < COUNT_OF(levels); i++)
        *levels[i] = PICK(d, counts);
    if (one_in(d, 40)) {
        unsigned *level = PICK(d, levels);
        *level = (unsigned)between(d, 4, one_in(d, 4) ? 300 : 40);
    }
    return s;
}

static uint64_t draw_amount(struct dice *d, uint64_t most)
{
    uint64_t amount = most;
    switch (below(d, 8)) {
    case 0:
        return 1;
    case 1:
        return most;
    case 2:
        return most > 1 ? most - 1 : 1;
    default: /* of any length */
        for (size_t i = below(d, 12); i > 0 && amount > 1000; i--)
            amount /= 10;
        return 1 + below(d, amount);
    }
}

/* A hundred of S's and E's largest items, so that these too reach the limit of
   a sum: with 99 haler more it is met, with 100 it is passed. */
static uint64_t draw_heavy(struct dice *d, uint64_t *amounts, unsigned *count)
{
    static const uint64_t more[] = {98, 99, 99, 100, 101, MOST_SMALL};
    uint64_t sum = 0;
    *count = 101;
    for (unsigned i = 0; i < 100; i++)
        sum += amounts[i] = MOST_SMALL;
    amounts[100] = PICK(d, more);
    return sum + amounts[100];
}

uint64_t draw_amounts(struct dice *d, unsigned sheet, uint64_t *amounts,
                      unsigned *count)
{
    uint64_t sum = 0, most = most_of_item(sheet);
    if (one_in(d, most == MOST_SMALL ? 300 : 2000))
        return draw_heavy(d, amounts, count);
    for (unsigned i = 0; i < *count; i++) {
        uint64_t left = MOST_SUM - sum - (*count - 1 - i);
        amounts[i] = draw_amount(d, left < most ? left : most);
        sum += amounts[i];
    }
    /* The last one at times makes it just the limit, or one more. */
    uint64_t *last = &amounts[*count - 1], lacks = MOST_SUM - sum;
    if (one_in(d, 12) && *last + lacks < most) {
        lacks += one_in(d, 8) ? 1 : 0;
        *last += lacks;
        sum += lacks;
    }
    return sum;
}

void draw_interval(struct dice *d, unsigned sheet, unsigned files,
                   unsigned *from, unsigned *to)
{
    if (sheet == K) {
        unsigned spare = 1000 - files;
        unsigned width = one_in(d, 3) ? 0 : (unsigned)below(d, spare + 1);
        *from = (unsigned)below(d, spare - width + 1);
        *to = *from + width + files - 1;
    } else { /* no other sheet looks at their order */
        *from = (unsigned)below(d, 1000);
        *to = (unsigned)below(d, 1000);
    }
}

uint8_t draw_name_byte(struct dice *d)
{
    uint8_t byte = (uint8_t)between(d, 32, 255);
    return byte == 127 ? ' ' : byte;
}

/* One of the last four days of a month, most often of one whose next month is
   shorter, longer, or in another year. */
static size_t draw_end_of_month(struct dice *d)
{
    static const unsigned months[] = {1, 1, 1, 2, 2, 12};
    size_t place = below(d, DAYS);
    unsigned month = one_in(d, 4) ? (unsigned)between(d, 1, 12) : PICK(d, months);
    while (place + 1 < DAYS && day_at(place) / 100 % 100 != month)
        place++;
    return month_end(place) - below(d, 4);
}

size_t draw_today(struct dice *d)
{
    /* Both ends of the century, leap days, turns of years. */
    static const size_t edges[] = {0, 1, 59, 60, 365, 366, 6575, 8825, 36159,
                                   36160, 36161, DAYS - 2, DAYS - 1};
    if (one_in(d, 4))
        return draw_end_of_month(d);
    return one_in(d, 4) ? PICK(d, edges) : below(d, DAYS);
}

size_t draw_due_day(struct dice *d, unsigned sheet, bool each, size_t today)
{
    size_t first, last;
    due_days(sheet, each, today, &first, &last);
    size_t second = first < last ? first + 1 : last;
    size_t inside = between(d, first, last);
    /* only of the first day banks are not judged alike */
    size_t days[] = {first, second, last, inside, each ? first : inside};
    return PICK(d, days);
}

/* What is judged at each item ends a month ahead, and not where that month
   does. */
size_t draw_near_day(struct dice *d, unsigned sheet, bool each, size_t today)
{
    size_t first, last;
    due_days(sheet, each, today, &first, &last);
    size_t near[] = {first, last, each ? month_end(last) : today};
    size_t place = PICK(d, near);
    switch (below(d, each ? 3 : 4)) {
    case 0:
        return place > 0 ? place - 1 : place;
    case 1:
        return place < DAYS - 1 ? place + 1 : place;
    default:
        return place;
    }
}

unsigned draw_kind(struct dice *d, unsigned sheet)
{
    if (judges_collections(sheet) && one_in(d, 3))
        return COLLECTIONS;
    return PAYMENTS + (unsigned)below(d, kinds_of(sheet));
}

uint64_t draw_bank(struct dice *d)
{
    static const uint64_t edges[] = {1,   3,   30,   299, 300,  301,
                                     800, 3000, 6100, 8100, 9999};
    return one_in(d, 4) ? PICK(d, edges) : between(d, 1, 9999);
}

uint64_t draw_own_or_other(struct dice *d, unsigned sheet, bool own)
{
    uint64_t bank = draw_bank(d), of_sheet = own_bank(sheet);
    return own ? of_sheet : bank == of_sheet ? bank + 1 : bank;
}

/* A number that would be the real one if some of its bits or digits were lost,
   or any. */
static uint64_t draw_odd(struct dice *d, uint64_t real)
{
    static const uint64_t offsets[] = {
        UINT64_C(1) << 8, UINT64_C(1) << 16, UINT64_C(1) << 31,
        UINT64_C(1) << 32, UINT64_C(1) << 63, UINT64_C(3) << 62,
        UINT64_C(100000000), UINT64_C(10000000000), -(UINT64_C(1) << 32),
        -(UINT64_C(1) << 8),
    };
    return one_in(d, 4) ? roll_bits(d) : real + PICK(d, offsets);
}

void draw_arguments(struct dice *d, unsigned sheet, size_t today,
                    uint64_t *sheet_out, uint64_t *today_out)
{
    static const uint64_t sheets[] = {0, LAST_SHEET + 1, LAST_SHEET + 2,
                                      LAST_SHEET + 3, UINT64_MAX};
    static const uint64_t days[] = {0, 1, 19991231, 20000100, 20180132,
                                    20180229, 20181301, 21000101, 21000228,
                                    UINT64_MAX};
    *sheet_out = sheet;
    *today_out = day_at(today);
    if (one_in(d, 32))
        *sheet_out = between(d, K, LAST_SHEET);
    if (one_in(d, 200))
        *sheet_out = one_in(d, 3) ? PICK(d, sheets) : draw_odd(d, sheet);
    if (one_in(d, 200))
        *today_out = one_in(d, 3) ? PICK(d, days) : draw_odd(d, *today_out);
}
