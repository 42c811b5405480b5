/* Numbers of account files by the register of the day: on K their first three
 * digits serve once a day. */
#ifndef ORDERBOOK_NUMBERING_H
#define ORDERBOOK_NUMBERING_H

#include "../common/register_file.h"
#include "ledger.h"
#include "telling.h"

/* Gives each account file of the ledger the lowest free number of the ledger's
 * interval as its first three digits; the last three stay. Nothing is marked
 * by that. Where the register is none or another day's, or no number is left,
 * says so and gives back false. */
bool number_files(const struct order *o, struct ledger *l,
                  const struct register_file *r);

#endif
