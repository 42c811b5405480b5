/* The judging pass: one walk over the file that changes no lent byte. */
#ifndef PEER_JUDGE_H
#define PEER_JUDGE_H

#include "judge_fields.h"

/* Judges a whole file.  The sheet and today are tested first; with number 0
   the counts and the header are set.  A register is lent too, or NULL. */
void peer_judge(struct judge *j, const uint8_t *file, size_t len,
                uint64_t sheet, uint64_t today, const struct bytes *reg);

#endif
