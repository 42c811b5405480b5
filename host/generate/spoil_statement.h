/* What can be wrong with statements: with their records, their rows, and the
   order of both. */
#ifndef HOST_SPOIL_STATEMENT_H
#define HOST_SPOIL_STATEMENT_H

#include "dice.h"
#include "text.h"

/* One thing is made wrong, or is at times still right. */
void spoil_statement_file(struct text *file, struct dice *d);
void spoil_statement_rows(struct text *rows, struct dice *d);

/* Words of any bits, every third one small or a kind of row. */
void wild_statement_rows(struct text *rows, struct dice *d);

/* One read word of one row, over all 64 bits or next to its limit. */
void wild_statement_word(struct text *rows, struct dice *d);

#endif
