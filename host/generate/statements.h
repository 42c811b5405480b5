/*
 * Statements, as rows and as a file: valid, wrong in a part or in some, or
 * garbage.  A seed gives the same one on every machine.
 */
#ifndef HOST_STATEMENTS_H
#define HOST_STATEMENTS_H

#include "dice.h"
#include "text.h"

/* Makes a file of its own for each seed. */
void generate_statement(struct text *file, uint64_t seed);

/* Makes rows of their own for each seed. */
void draw_statement(struct text *rows, uint64_t seed);

/* Valid rows, and what is their file in one of its spellings: a zero has a
   minus at times, or never if there are no dice. */
void put_valid_rows(struct text *rows, struct dice *d);
void put_file_of_rows(struct text *file, const struct text *rows,
                      struct dice *d);

/* Files at the limits: of sums, of counts, of what a record may be.  Makes the
   file at a place from 0 on, with the number that it is read with; false behind
   the last one. */
bool corner_statement(struct text *file, uint64_t *number, unsigned place);

/* So many statements of so many movements each, which are alike but for their
   numbers; valid, and spelled as they are written. */
void put_many_statements(struct text *file, size_t statements,
                         size_t movements);

#endif
