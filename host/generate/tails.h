/* What stands behind the bank field of an item. */
#ifndef HOST_TAILS_H
#define HOST_TAILS_H

#include "plan.h"

void put_tail(struct plan *p);

#endif
