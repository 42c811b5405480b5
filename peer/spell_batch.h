/* Canonical spelling (document 01) of rows that have been judged. */
#ifndef PEER_SPELL_BATCH_H
#define PEER_SPELL_BATCH_H

#include "batch.h"

/* The bytes of a row's line with its end, for a row that has been judged; the
   total of a group is not counted. */
uint64_t peer_line_bytes(const struct batch *b, const uint8_t *row);

/* Spells a batch that has been judged into room that is large enough. */
void peer_spell_batch(const struct batch *b, uint8_t *out);

#endif
