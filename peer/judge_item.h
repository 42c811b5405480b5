/* One payment: its fields and its tail. */
#ifndef PEER_JUDGE_ITEM_H
#define PEER_JUDGE_ITEM_H

#include "judge_fields.h"

/* Judges the line, from j->at at its start.  True leaves j->at at the
   line's end; false means refused. */
bool peer_judge_item(struct judge *j);

#endif
