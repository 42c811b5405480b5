/* Accounts that are valid (document 01, Accounts). */
#ifndef HOST_ACCOUNTS_H
#define HOST_ACCOUNTS_H

#include "dice.h"

struct account_value {
    uint64_t prefix, base; /* prefix 0: none */
};

struct account_value draw_account(struct dice *d);

#endif
