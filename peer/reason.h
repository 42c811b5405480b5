/* Why a file is refused: the cause, the field and what was allowed. */
#ifndef PEER_REASON_H
#define PEER_REASON_H

#include "finding.h"
#include "judge_fields.h"

/* For a file that was refused with 3 to 15; today is YYYYMMDD. */
void peer_reason(const struct judge *j, uint64_t today,
                 struct peer_finding *out);

#endif
