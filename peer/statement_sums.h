/* The statement in hand, while its movements are added up, and what is asked of
   it when it is over (request W-204: 52 and 53). */
#ifndef PEER_STATEMENT_SUMS_H
#define PEER_STATEMENT_SUMS_H

#include "statement.h"

/* A sum in two words, two's complement over both.  An amount is below 2^40 and
   fewer than 2^64 are added, so it never wraps, whatever a file's length. */
struct exact {
    uint64_t high, low;
};

static inline void exact_add(struct exact *sum, uint64_t amount)
{
    sum->low += amount;
    sum->high += sum->low < amount;
}

static inline void exact_subtract(struct exact *sum, uint64_t amount)
{
    sum->high -= sum->low < amount;
    sum->low -= amount;
}

/* Is the sum what this word says in two's complement? */
static inline bool exact_is(struct exact sum, uint64_t word)
{
    return sum.low == word && sum.high == 0 - (word >> 63);
}

struct statement {
    uint64_t head; /* the number of its 074, from 1; 0 before the first */
    uint64_t words[STATEMENT_WORDS];
    struct exact debit, credit;
};

/* Takes in a record whose fields are right; a 074 begins a statement. */
static inline void statement_take(struct statement *s, uint64_t number,
                                  const uint64_t *words)
{
    uint64_t amount = words[MOVEMENT_AMOUNT];
    if (words[0] == ROW_HEAD) {
        *s = (struct statement){.head = number};
        memcpy(s->words, words, sizeof s->words);
        return;
    }
    switch (words[MOVEMENT_CODE]) {
    case CODE_DEBIT:
        exact_add(&s->debit, amount);
        break;
    case CODE_DEBIT_REVERSED:
        exact_subtract(&s->debit, amount);
        break;
    case CODE_CREDIT:
        exact_add(&s->credit, amount);
        break;
    default:
        exact_subtract(&s->credit, amount);
    }
}

/* May a record of this kind come next?  A movement needs a head above it. */
static inline bool statement_goes_on(const struct statement *s, uint64_t kind)
{
    return kind == ROW_HEAD || (kind == ROW_MOVEMENT && s->head != 0);
}

/* The field at fault in the head of a statement that is over, or 0; so too
   where there is no statement yet, as all is zero then.  The balances are asked
   last, of fields below 10^14 either way, so that wrapping words are exact. */
static inline uint64_t statement_fault(const struct statement *s)
{
    if (!exact_is(s->debit, s->words[HEAD_DEBIT]))
        return HEAD_DEBIT;
    if (!exact_is(s->credit, s->words[HEAD_CREDIT]))
        return HEAD_CREDIT;
    if (s->words[HEAD_NEW] + s->words[HEAD_DEBIT] !=
        s->words[HEAD_OLD] + s->words[HEAD_CREDIT])
        return HEAD_NEW;
    return 0;
}

static inline uint64_t statement_number(uint64_t fault)
{
    return fault == HEAD_NEW ? 53 : 52;
}

#endif
