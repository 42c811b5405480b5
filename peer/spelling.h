/* How a field must be spelled on a sheet, in words. */
#ifndef PEER_SPELLING_H
#define PEER_SPELLING_H

#include "finding.h"
#include "pen.h"
#include "sheet.h"

/* For a finding whose field has wrong bytes or a wrong length. */
void peer_spelling(struct pen *p, const struct peer_sheet *sheet,
                   const struct peer_finding *f);

#endif
