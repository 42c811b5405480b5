/* What is said of a ledger that becomes no file: why, and where in it. */
#ifndef ORDERBOOK_TELLING_H
#define ORDERBOOK_TELLING_H

#include "ledger.h"

/* The ledger's name, `-` for standard input, and what it was written for. */
struct order {
    const char *name;
    uint64_t sheet, today;
};

/* A line that could not be understood. */
void tell_misread(const struct order *o, const struct ledger *l);

/* A refusal of abo_write: the field, the value as it stands in the ledger, and
 * what is allowed there. */
void tell_unwritten(const struct order *o, const struct ledger *l,
                    struct abo_written w);

/* An account file, by its row from 1, for which the register of this name has
 * no free number. */
void tell_no_number(const struct order *o, const struct ledger *l,
                    uint64_t row, const char *reg);

#endif
