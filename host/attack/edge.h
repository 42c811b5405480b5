/* Bytes lent at the very edge of pages that nobody may touch, to be read or to
   be written.  On their open side some bytes more are watched. */
#ifndef HOST_EDGE_H
#define HOST_EDGE_H

#include "../call/lend.h"
#include "../generate/text.h"

/* The page in front of them, or the one behind them; or, if there are none,
   no pointer at all. */
enum edge_at { AT_FRONT, AT_BACK, AT_NULL };

struct edge {
    struct fence fence;
    uint8_t *lent;
    size_t len;
    uint8_t *watched; /* the lent bytes and those on the open side */
    struct text kept; /* all of these as they were */
    size_t sealed;    /* how many bytes can not be written now */
};

/* Lends a copy of the bytes; where there are none to copy, the fill alone.  The
   bytes on the open side are the fill. */
uint8_t *edge_lend(struct edge *e, const uint8_t *bytes, size_t len,
                   enum edge_at at, uint8_t fill);

/* Are all watched bytes but the first so many of the lent ones as they were? */
bool edge_kept(const struct edge *e, size_t used);

/* From now on no byte can be written, not even for a moment; and again. */
void edge_seal(struct edge *e);
void edge_open(struct edge *e);

#endif
