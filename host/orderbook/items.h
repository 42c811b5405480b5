/* Lines of wages and invoices, which become items. */
#ifndef ORDERBOOK_ITEMS_H
#define ORDERBOOK_ITEMS_H

#include "words.h"

/* What follows the first word of such a line. */
bool take_wage(struct ledger *l, struct cursor *c, struct span word);
bool take_invoice(struct ledger *l, struct cursor *c, struct span word);

#endif
