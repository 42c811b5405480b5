/* What the five sheets differ in, as parameters; the rules are written once. */
#ifndef PEER_SHEET_H
#define PEER_SHEET_H

#include <stdbool.h>
#include <stddef.h>
#include <stdint.h>
#include <string.h>

/* Limits of document 01, "The batch", that hold on every sheet. */
enum {
    ROW_BYTES = 192,
    FIRST_KIND = 1501,
    LAST_KIND = 1504,
    COLLECTIONS = 1502,
    MOST_FILES = 1000,
    MOST_ITEMS = 99999,
    MOST_PARTS = 4,
    TEXT_BYTES = 35,
    NAME_BYTES = 20,
    USUAL_PRIORITY = 5,
    AMOUNT_DIGITS = 14
};

enum { SHEETS = 5 };
#define AMOUNT_MOST UINT64_C(99999999999999)
#define SYMBOL_MOST UINT64_C(9999999999)
#define BASE_MOST UINT64_C(9999999999)
#define PREFIX_MOST UINT64_C(999999)
#define REFERENCE_MOST UINT64_C(4294967295) /* request W-206 */

enum peer_tail {
    PEER_TAIL_PART,   /* S: symbol and first message part, both spaces kept */
    PEER_TAIL_AV,     /* K, E, P: optional symbol, then optional AV: text */
    PEER_TAIL_AV_NP   /* C: AV: may be missing, a name may follow */
};

struct peer_sheet {
    char letter;

    /* The first line and the account file's head. */
    bool header;        /* the first line has fields */
    bool short_header;  /* it may stop after the interval, or six bytes on */
    bool interval;      /* numbers are bound by the interval, and unlike */
    bool any_bank;
    uint64_t bank;      /* as wanted, or as written where any is taken */
    uint64_t last_kind;

    /* Accounts. */
    bool joined;        /* prefix and base may stand without a dash */
    size_t base_digits; /* the fewest digits spelled in a base */

    /* The group's head and its closing. */
    bool by_spaces;     /* a missing payer is seen by the count of spaces */
    bool zeros_single;  /* a payer of zeros only is none */
    bool long_date;     /* RRRRMMDD too */
    bool past_refused;
    bool past_warns;
    bool total_binds;   /* a differing total refuses; else it warns */
    bool tight_close;   /* 3+ and 5+ too */
    uint64_t days_ahead;
    bool collects;      /* kind 1502 has days of its own (request W-202) */

    /* Items. */
    bool comma;         /* amounts may be spelled with a comma */
    bool priority;      /* the ninth digit of the bank field has a meaning */
    size_t item_digits; /* the most digits of an item's amount */
    uint64_t item_most; /* the largest amount of an item */
    uint64_t all_items; /* the most items in the whole file */
    enum peer_tail tail;
    bool plain_parts;   /* no # and no ~ in a message part */
};

/* The sheet of a number, or NULL. */
const struct peer_sheet *peer_sheet_of(uint64_t number);

/* Day numbers, see days.h.  A past day may warn, which is not refused here. */
static inline bool sheet_takes_day(const struct peer_sheet *sheet, uint64_t day,
                                   uint64_t today)
{
    if (day < today)
        return !sheet->past_refused;
    return day - today <= sheet->days_ahead;
}

/* Is the day judged for each item, and not for its group? */
static inline bool sheet_collects(const struct peer_sheet *sheet, uint64_t kind)
{
    return sheet->collects && kind == COLLECTIONS;
}

/* Day numbers.  An item of the sheet's own bank is due today at the soonest,
   one of any other bank tomorrow; both within one month. */
static inline bool sheet_takes_collection(const struct peer_sheet *sheet,
                                          uint64_t bank, uint64_t day,
                                          uint64_t today, uint64_t month_ahead)
{
    uint64_t soonest = bank == sheet->bank ? today : today + 1;
    return day >= soonest && day <= month_ahead;
}

/* Bytes of a message part, or of several with the bars between them. */
static inline bool sheet_takes_bytes(const struct peer_sheet *sheet,
                                     const uint8_t *bytes, size_t len)
{
    return !sheet->plain_parts || (memchr(bytes, '#', len) == NULL &&
                                   memchr(bytes, '~', len) == NULL);
}

#endif
