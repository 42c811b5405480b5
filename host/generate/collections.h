/* Files and batches of one collection, about both ends of the days on which it
   may be due. */
#ifndef HOST_COLLECTIONS_H
#define HOST_COLLECTIONS_H

#include "draft.h"
#include "generate.h"

/* For each today, which is a place in the list of days, there are so many: the
   days at both ends and beside them, and the end of the month that the last one
   lies in; each from the sheet's own bank and from another. */
enum { COLLECTION_DAYS = 8, COLLECTION_CASES = 2 * COLLECTION_DAYS };

/* Is it one that may be due?  Nothing else is wrong with any. */
bool collection_taken(size_t today, unsigned which);

void collection_file(struct made *made, unsigned sheet, size_t today,
                     unsigned which);
void collection_draft(struct draft *draft, unsigned sheet, size_t today,
                      unsigned which);

#endif
