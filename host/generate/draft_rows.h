/* Rows of a batch, one each, put behind those that are there. */
#ifndef HOST_DRAFT_ROWS_H
#define HOST_DRAFT_ROWS_H

#include "draft_plan.h"

/* Its place counts from 0. */
void put_account_file(struct draft_plan *p, unsigned place);

/* Gives back whether the group is single. */
bool put_group_row(struct draft_plan *p);

void put_item_row(struct draft_plan *p, bool single, uint64_t amount);

#endif
