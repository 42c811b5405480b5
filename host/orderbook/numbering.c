#include "numbering.h"

#include <inttypes.h>
#include <stdio.h>
#include <string.h>

#include "../common/names.h"
#include "../common/sheet_and_day.h"

enum { SERIES = 1000 }; /* numbers of one first three digits */

static bool other_day(const struct order *o, const struct register_file *r)
{
    fputs("orderbook: ", stderr);
    put_name(stderr, r->name);
    fputs(" is the register of ", stderr);
    put_day(stderr, register_date(r));
    fputs(", and the file is made on ", stderr);
    put_day(stderr, o->today);
    fprintf(stderr, " (%d). `abo register start` starts a day.\n",
            ABO_BAD_REGISTER);
    return false;
}

static void take(struct abo_register *day, uint64_t number)
{
    day->numbers[number / 64] |= UINT64_C(1) << number % 64;
}

/* A copy of the register in which what the ledger may not use is taken. */
static struct abo_register within(const struct ledger *l,
                                  const struct register_file *r)
{
    struct abo_register day;
    memcpy(&day, r->bytes, sizeof day);
    for (uint64_t n = 0; n < ABO_REGISTER_NUMBERS; n++)
        if (n < l->header.from || n > l->header.to)
            take(&day, n);
    return day;
}

/* An interval that is turned round or too wide is the library's to refuse. */
static bool is_interval(const struct ledger *l)
{
    return l->header.from <= l->header.to &&
           l->header.to < ABO_REGISTER_NUMBERS;
}

bool number_files(const struct order *o, struct ledger *l,
                  const struct register_file *r)
{
    if (!is_register(r))
        return tell_malformed(r), false;
    if (register_date(r) != o->today)
        return other_day(o, r);
    if (!is_interval(l))
        return true;
    struct abo_register day = within(l, r);
    for (size_t i = 0; i < l->count; i++) {
        if (l->rows[i].word[ABO_FIELD_ROW] != ABO_ROW_FILE)
            continue;
        uint64_t lowest =
            abo_register_lowest((const uint8_t *)&day, sizeof day).value;
        if (lowest == ABO_REGISTER_NUMBERS)
            return tell_no_number(o, l, i + 1, r->name), false;
        l->rows[i].file.number =
            lowest * SERIES + l->rows[i].file.number % SERIES;
        take(&day, lowest);
    }
    return true;
}
