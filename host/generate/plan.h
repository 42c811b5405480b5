/* What the parts of the file generator share. */
#ifndef HOST_PLAN_H
#define HOST_PLAN_H

#include "faults.h"
#include "limits.h"
#include "text.h"

enum line_ends { ENDS_LF, ENDS_CR_LF, ENDS_CR, ENDS_MIXED };

/* What can be spoilt. */
enum part {
    AT_START, AT_CREATED, AT_NAME, AT_INTERVAL, AT_ORDER, AT_REST, AT_FIRST,
    AT_KIND, AT_NUMBER, AT_NUMBER_OF_K, AT_PAYER_BANK,
    AT_NO_PAYER, AT_TOTAL, AT_DATE,
    AT_ACCOUNT, AT_AMOUNT, AT_DIGITS, AT_BANK, AT_TERM,
    AT_TAIL, AT_MESSAGE, AT_WILD, AT_PARTS, AT_LENGTH, AT_RUN,
    AT_UNCLEAN, AT_MARK,
    AT_GAP, AT_CLOSING, AT_LINE_END,
    ALL_PARTS
};

struct plan {
    struct dice dice;
    struct text *out;
    unsigned sheet;       /* whose spelling is followed */
    size_t today;         /* a place in the list of days */
    enum line_ends ends;
    struct faults faults;
    /* K: an interval with a number for each account file, and from which of
       its ends they are given out. */
    unsigned from, to;
    bool downward;
    /* The account file's days are judged at each item, and the group's is today,
       on which only the sheet's own bank may be. */
    bool each, due_today;
};

/* Shall the part in hand be wrong? */
static inline bool spoils(struct plan *p, enum part part)
{
    return falls_on(&p->faults, &p->dice, part);
}

/* Bytes that stand next to what the rules test for: digits and their
   neighbours, marks, the ends of the text bytes, line ends. */
uint8_t telling_byte(struct dice *d);

/* Changes what was put since a place, by a byte. */
void nudge(struct plan *p, size_t start);

/* Puts one of the spellings in the place of what was put since a place, or
   nudges that. */
void spoil_field(struct plan *p, size_t start, const char *const *aims,
                 size_t count);
#define SPOIL(p, start, aims) spoil_field((p), (start), (aims), COUNT_OF(aims))

#endif
