/* One batch written by the library and by the second program, with rooms of
   every kind: the whole answer, the bytes written and the bytes around them. */
#ifndef HOST_ASK_WRITE_H
#define HOST_ASK_WRITE_H

#include <abo.h>

#include "../generate/draft.h"

enum { WRITE_FIELDS = ABO_ITEM_REFERENCE + 1, WRITE_THINGS = 5 };

/* How often each number came, and 20 and 21 with each field of the header (0),
   of each kind of row, and of a row that is missing or strange (4). */
extern unsigned long write_counts[22];
extern unsigned long write_fields[2][WRITE_THINGS][WRITE_FIELDS];

/* None, then too little, exact and plenty if the batch can be written, else
   any. */
void compare_draft(const char *what, uint64_t seed, const struct draft *draft);

/* With the batch as it lies and room for so many bytes.  Gives back the
   answer. */
struct abo_written compare_once(const char *what, const struct draft *draft,
                                size_t room);

/* A call in which every pointer is NULL. */
void compare_nothing(uint64_t sheet, uint64_t today);

#endif
