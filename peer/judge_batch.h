/* Rows and header against "The batch" and the range of references (20), and
   against the sheet (21). */
#ifndef PEER_JUDGE_BATCH_H
#define PEER_JUDGE_BATCH_H

#include "batch.h"

/* What judging finds: number 0 with the bytes of the canonical file, or 20 or
   21 with its row and field. */
struct finding {
    uint64_t number, row, field, bytes;
};

struct finding peer_judge_batch(const struct batch *b);

#endif
