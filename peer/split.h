/* The text at an item's end, split into message parts and a name
   (document 01, Lines: the tail). */
#ifndef PEER_SPLIT_H
#define PEER_SPLIT_H

#include "bytes.h"
#include "sheet.h"

struct split {
    bool fits;      /* else 14 */
    unsigned cuts;  /* parts and names cut to their limit */
    /* Four parts, then the name; an empty one is place 0, length 0. */
    size_t place[MOST_PARTS + 1], length[MOST_PARTS + 1];
};

/* The text runs from one place to another and holds text bytes only. */
void peer_split(struct bytes file, size_t at, size_t end,
                const struct peer_sheet *sheet, struct split *out);

#endif
