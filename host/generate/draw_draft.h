/*
 * Batches lent for writing: valid on a sheet, wrong in a field or in some, or
 * garbage.  A seed gives the same batch on every machine.
 */
#ifndef HOST_DRAW_DRAFT_H
#define HOST_DRAW_DRAFT_H

#include "draft.h"

/* Makes a batch of its own for each seed. */
void draw_draft(struct draft *draft, uint64_t seed);

#endif
