/*
 * What stands behind the amount of a wage or an invoice: keys in any order,
 * then the message. A message is free text, so whatever could have been meant
 * for a key, or for a part of the amount, is refused as its beginning; between
 * quotation marks it may begin with anything.
 */
#ifndef ORDERBOOK_KEYS_H
#define ORDERBOOK_KEYS_H

#include "words.h"

/* Letters and then `=`, as keys are spelled, known or not. */
bool is_keyed(const struct ledger *l, struct span word);

/* Fills the last row's symbols and priority. */
bool take_keys(struct ledger *l, struct cursor *c, struct span amount);

/* Fills the last row's parts. */
bool take_message(struct ledger *l, struct cursor *c);

#endif
