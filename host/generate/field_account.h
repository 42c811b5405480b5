/* Accounts and their absence, in every form. */
#ifndef HOST_FIELD_ACCOUNT_H
#define HOST_FIELD_ACCOUNT_H

#include "plan.h"

void put_account(struct plan *p);

/* What stands before TOTAL in a group's line if the group is single. */
void put_no_payer(struct plan *p);

#endif
