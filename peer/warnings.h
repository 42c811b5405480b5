/* The warnings of an accepted file, in file order. */
#ifndef PEER_WARNINGS_H
#define PEER_WARNINGS_H

#include "finding.h"
#include "sheet.h"

/* Hands each warning over; today is YYYYMMDD. */
void peer_warnings(struct bytes file, const struct peer_sheet *sheet,
                   uint64_t today,
                   void (*take)(void *to, const struct peer_finding *f),
                   void *to);

#endif
