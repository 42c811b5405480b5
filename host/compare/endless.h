/* Records or rows by the million, of which only a few lie in memory: the same
   pages are seen again and again.  So a sum can pass 2^64 and come back, as it
   does in a file of 4.8 GB. */
#ifndef HOST_ENDLESS_H
#define HOST_ENDLESS_H

#include <stddef.h>
#include <stdint.h>

/* How many pieces a run has: a sum of 12 digits each passes 2^64 in one. */
enum { ENDLESS_RUN = 2048 * 9008 };

struct endless {
    uint8_t *bytes; /* to be read only, but for the first chunk */
    size_t len, all;
};

/* The second piece again and again, then the third, for so many runs, each piece
   of `size` bytes; the first stands in the place of one of the first run.  The
   caller may make `len` less than `all`. */
void make_endless(struct endless *e, const uint8_t *pieces, size_t size,
                  unsigned runs);
void free_endless(struct endless *e);

#endif
