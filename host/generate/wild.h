/* Numbers from all over the 64 bits, rows that are next to valid ones, and
   bytes without sense. */
#ifndef HOST_WILD_H
#define HOST_WILD_H

#include "dice.h"
#include "draft.h"

/* An edge, any bits, or what is the real one but for some of its bits. */
uint64_t wild_number(struct dice *d, uint64_t real);

/* Changes one word of one row; in a text at times both of its words, so that
   their sum comes round to a small number. */
void wild_word(struct text *rows, size_t texts_len, struct dice *d);

/* As many bytes as make no whole row are taken off or put behind. */
void wild_length(struct text *rows, struct dice *d);

/* Words of any bits, every third one small, so that some are kinds of rows. */
void wild_rows(struct text *rows, struct dice *d);

/* Bytes of any value, or those that the rules of files test for. */
void wild_bytes(struct text *bytes, struct dice *d);

#endif
