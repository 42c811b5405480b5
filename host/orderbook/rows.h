/* Rows of the batch, made word by word from the ledger. */
#ifndef ORDERBOOK_ROWS_H
#define ORDERBOOK_ROWS_H

#include "ledger.h"

/* A row of zeros but for its kind, its fields placed at the line's first
 * word. */
bool add_row(struct ledger *l, uint64_t kind, struct span word);

/* What the last row is; 0 if there is none. */
uint64_t last_kind(const struct ledger *l);

/* Words of the last row, and where they come from. */
void set_number(struct ledger *l, unsigned word, uint64_t value,
                struct span from);
void set_account(struct ledger *l, unsigned word, struct abo_account account,
                 struct span from);
void set_text(struct ledger *l, unsigned word, struct span text);

#endif
