/* What the parts of the batch generator share. */
#ifndef HOST_DRAFT_PLAN_H
#define HOST_DRAFT_PLAN_H

#include "draft.h"
#include "draft_texts.h"
#include "faults.h"

/* What can be wrong. */
enum part {
    AT_DATE_MADE, AT_DAY_MADE, AT_NAME_MADE, AT_CLIENT, AT_FROM, AT_TO,
    AT_ORDER, AT_ROW, AT_KIND, AT_NUMBER, AT_DUE, AT_GROUP_PAYER,
    AT_PAYER, AT_PAYEE, AT_BANK, AT_TERM, AT_AMOUNT, AT_VARIABLE, AT_SPECIFIC,
    AT_CONSTANT, AT_PRIORITY, AT_TEXT, AT_LENGTH, AT_REFERENCE,
    ALL_PARTS
};

struct draft_plan {
    struct dice dice;
    struct draft *draft;
    struct pool pool;
    unsigned sheet;
    size_t today;
    struct faults faults;
    bool dirty;       /* words that a row does not use hold something */
    bool each, due_today; /* as in plan.h */
};

/* Shall the part in hand be wrong? */
static inline bool spoils(struct draft_plan *p, enum part part)
{
    return falls_on(&p->faults, &p->dice, part);
}

/* A number that should lie between two, or one near these limits or far off. */
static inline uint64_t limited(struct draft_plan *p, enum part part,
                               uint64_t value, uint64_t least, uint64_t most)
{
    const uint64_t near[] = {
        least - 1, least, most, most + 1, most + 1, 0, UINT64_MAX,
        value + (UINT64_C(1) << 32), UINT64_C(1) << 63, UINT64_MAX - 1,
    };
    if (!spoils(p, part))
        return value;
    return one_in(&p->dice, 4) ? roll_bits(&p->dice) : PICK(&p->dice, near);
}

#endif
