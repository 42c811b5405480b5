/* The bytes that the texts of a batch lie in, and where to point into them. */
#ifndef HOST_DRAFT_TEXTS_H
#define HOST_DRAFT_TEXTS_H

#include "dice.h"
#include "text.h"

enum { MOST_PIECES = 12 };

struct pool {
    struct text *texts;
    /* Runs of bytes that any text may hold, and marks that some may not. */
    size_t runs[MOST_PIECES], run_lens[MOST_PIECES], run_count;
    size_t marks[MOST_PIECES], mark_count;
};

struct span {
    uint64_t place, length;
};

void draw_pool(struct pool *pool, struct text *texts, struct dice *d);

/* A span that every sheet's text may have. */
struct span draw_span(const struct pool *pool, struct dice *d);

/* A span near the limits, over a mark, or outside of the lent bytes. */
struct span draw_wrong_span(const struct pool *pool, struct dice *d);

#endif
