/* Which payments of a file have left the account, by a statement. */
#ifndef ORDERBOOK_PAID_H
#define ORDERBOOK_PAID_H

#include <stdbool.h>
#include <stdio.h>

#include <abo.h>
#include "../common/statement.h"

/* A payment (an item of kind 1501) has left if a debit of the statement, of
 * code 1, has its payer, payee, amount and variable symbol, and came back if
 * that was reversed and not made anew; each movement is for one payment. Shows
 * all of them and counts. False if there is not enough memory. */
bool show_paid(FILE *out, const union abo_row *rows, size_t count,
               const struct statement *statement);

#endif
