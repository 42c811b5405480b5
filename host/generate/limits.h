/* What the sheets take, as far as the generators have to know it to stay on
   the right side or to step just over. */
#ifndef HOST_LIMITS_H
#define HOST_LIMITS_H

#include <stdbool.h>
#include <stdlib.h>

#include <abo.h>

#include "days.h"

/* Short, since the generators name little else.  Whatever goes through all
   sheets goes from K to LAST_SHEET. */
enum {
    K = ABO_SHEET_K,
    S = ABO_SHEET_S,
    C = ABO_SHEET_C,
    E = ABO_SHEET_E,
    P = ABO_SHEET_P,
    LAST_SHEET = P
};

/* Kinds of account files. */
enum { PAYMENTS = 1501, COLLECTIONS = 1502 };

/* The most that a group's sum may be, and an item on S and E. */
#define MOST_SUM UINT64_C(99999999999999)
#define MOST_SMALL UINT64_C(999999999999)

static inline uint64_t most_of_item(unsigned sheet)
{
    return sheet == S || sheet == E ? MOST_SMALL : MOST_SUM;
}

/* The payer's bank; C takes any other one too. */
static inline const char *payer_bank(unsigned sheet)
{
    return sheet == K   ? "8100"
           : sheet == S ? "0800"
           : sheet == E ? "6100"
                        : "0300";
}

/* The same as a number, as an item's bank has it. */
static inline uint64_t own_bank(unsigned sheet)
{
    return strtoull(payer_bank(sheet), NULL, 10);
}

/* The kinds are 1501 and so many in all. */
static inline unsigned kinds_of(unsigned sheet)
{
    return sheet == C ? 4 : sheet == S || sheet == P ? 2 : 1;
}

/* C and P: accounts may be joined, and due dates may have eight digits. */
static inline bool spells_long(unsigned sheet)
{
    return sheet == C || sheet == P;
}

/* A due day that is past is taken with a warning, but for what
   `judges_each` names. */
static inline bool warns_of_past(unsigned sheet)
{
    return sheet == C || sheet == P;
}

/* Collections have days of their own, and each item is judged by its bank. */
static inline bool judges_collections(unsigned sheet)
{
    return sheet == C || sheet == P;
}

/* Is the due day of this kind judged at each item? */
static inline bool judges_each(unsigned sheet, uint64_t kind)
{
    return judges_collections(sheet) && kind == COLLECTIONS;
}

/* `3+` and `5+` close too. */
static inline bool closes_tight(unsigned sheet)
{
    return sheet == C || sheet == E;
}

/* A group always has its payer's field, which is empty where there is none. */
static inline bool empty_payer(unsigned sheet)
{
    return sheet == S || sheet == E;
}

/* First and last day that may be due; days are places in the list of days.
   What is judged at each item may be due on the first of them, which is today,
   from the sheet's own bank alone. */
static inline void due_days(unsigned sheet, bool each, size_t today,
                            size_t *first, size_t *last)
{
    if (each) {
        *first = today;
        *last = month_ahead(today);
        return;
    }
    size_t ahead = sheet == K ? 364 : sheet == C || sheet == P ? 365 : DAYS;
    *first = sheet == K || sheet == S ? today : 0;
    *last = today + ahead < DAYS ? today + ahead : DAYS - 1;
}

#endif
