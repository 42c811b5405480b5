/* Fields in every spelling that the sheet takes, and spoilt ones. */
#ifndef HOST_FIELDS_H
#define HOST_FIELDS_H

#include "plan.h"

/* The space between two fields. */
void put_gap(struct plan *p);

/* So many digits at random; spoilt by one more, one less and the like. */
void put_digits(struct plan *p, size_t least, size_t most);

void put_amount(struct plan *p, uint64_t amount);
void put_total(struct plan *p, uint64_t sum);

/* A day that the sheet takes as due today. */
void put_due_date(struct plan *p);

/* Payee bank and constant symbol, with the digits in front of them. */
void put_bank(struct plan *p);

#endif
