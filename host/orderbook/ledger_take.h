/* A whole ledger, understood line by line. */
#ifndef ORDERBOOK_LEDGER_TAKE_H
#define ORDERBOOK_LEDGER_TAKE_H

#include "../common/input.h"
#include "ledger.h"

/* False if a line cannot be understood: then fault says why, and fault_span
 * where. What goes into the file depends on the sheet. */
bool ledger_take(struct ledger *l, const struct input *from,
                 enum encoding encoding, uint64_t sheet);

#endif
