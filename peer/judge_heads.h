/* Lines that open something: the first line, the account file's head and the
   group's head. */
#ifndef PEER_JUDGE_HEADS_H
#define PEER_JUDGE_HEADS_H

#include "judge_fields.h"

/* Judges one line each, from j->at at its start.  True leaves j->at at the
   line's end; false means refused. */
bool peer_judge_first(struct judge *j);
bool peer_judge_file(struct judge *j);
bool peer_judge_group(struct judge *j);

#endif
