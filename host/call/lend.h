/* Bytes lent to a call under test, so that every touch outside shows. */
#ifndef HOST_LEND_H
#define HOST_LEND_H

#include <stdbool.h>
#include <stddef.h>
#include <stdint.h>

/* Room to be written to, between guard bytes.  All of it is filled with one
   byte before the call, and looked at behind it. */
struct room {
    uint8_t *bytes; /* lent */
    size_t len;
    uint8_t *all;   /* with both guards */
    size_t all_len, capacity;
    uint8_t fill;
};

/* Lends so many bytes, at an address that is `skew` past a multiple of 16. */
void lend_room(struct room *r, size_t len, size_t skew, uint8_t fill);

/* Lends as many to the library and to the second program, with another fill and
   other alignments in each call. */
void lend_both(struct room *ours, struct room *theirs, size_t len);

/* Are all bytes but the first so many of the lent ones as they were? */
bool room_untouched(const struct room *r, size_t used);

/* Of no bytes there need be no pointers. */
bool same_bytes(const uint8_t *a, const uint8_t *b, size_t len);

/* Bytes to be read only.  They end, or begin, at a page that nobody may touch,
   which stops code that no sanitizer has seen. */
struct fence {
    uint8_t *pages;
    size_t capacity;
};

const uint8_t *lend_bytes(struct fence *f, const void *bytes, size_t len,
                          bool at_end);

#endif
