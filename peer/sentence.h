/* A finding in words. */
#ifndef PEER_SENTENCE_H
#define PEER_SENTENCE_H

#include "finding.h"
#include "pen.h"
#include "sheet.h"

/* What the words of a file's findings are made from besides these. */
struct worded {
    struct bytes file;
    const struct peer_sheet *sheet;
    uint64_t today; /* YYYYMMDD */
};

/* One line with its LF. */
void peer_sentence(struct pen *p, const struct worded *w,
                   const struct peer_finding *f);

#endif
