/* Why a field is refused. */
#ifndef PEER_REASON_FIELD_H
#define PEER_REASON_FIELD_H

#include "finding.h"
#include "retrace.h"

static inline void because(struct peer_finding *out, uint64_t cause,
                           uint64_t least, uint64_t most)
{
    out->cause = cause;
    out->least = least;
    out->most = most;
}

/* For a field of the line in hand that is refused with the finding's number, 4
   to 14; today is YYYYMMDD. */
void peer_field_reason(const struct retrace *r, const struct field *f,
                       uint64_t today, struct peer_finding *out);

#endif
