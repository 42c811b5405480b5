#define _DEFAULT_SOURCE /* for MAP_ANONYMOUS */
#include "lend.h"
#include "show.h"

#include <stdlib.h>
#include <string.h>
#include <sys/mman.h>

enum { GUARD = 64, PAGE = 4096 };

void lend_room(struct room *r, size_t len, size_t skew, uint8_t fill)
{
    size_t all = len + 2 * GUARD + 16;
    if (all > r->capacity) {
        free(r->all);
        r->capacity = all * 2;
        r->all = aligned_alloc(16, (r->capacity + 15) / 16 * 16);
        if (r->all == NULL)
            give_up("room");
    }
    memset(r->all, fill, all);
    r->all_len = all;
    r->bytes = r->all + GUARD + skew % 16;
    r->len = len;
    r->fill = fill;
}

void lend_both(struct room *ours, struct room *theirs, size_t len)
{
    static uint8_t turn;
    turn = (uint8_t)(turn * 5 + 113);
    lend_room(ours, len, turn >> 4, turn);
    lend_room(theirs, len, turn >> 2, turn);
}

/* Each byte is the fill if the first is and each is like the one before. */
static bool all_filled(const uint8_t *bytes, size_t len, uint8_t fill)
{
    return len == 0 ||
           (bytes[0] == fill && memcmp(bytes, bytes + 1, len - 1) == 0);
}

bool room_untouched(const struct room *r, size_t used)
{
    const uint8_t *behind = r->bytes + used, *end = r->all + r->all_len;
    return used <= r->len &&
           all_filled(r->all, (size_t)(r->bytes - r->all), r->fill) &&
           all_filled(behind, (size_t)(end - behind), r->fill);
}

bool same_bytes(const uint8_t *a, const uint8_t *b, size_t len)
{
    return len == 0 || memcmp(a, b, len) == 0;
}

static void map_pages(struct fence *f, size_t len)
{
    if (f->pages != NULL)
        munmap(f->pages, f->capacity + 2 * PAGE);
    f->capacity = (len * 2 / PAGE + 1) * PAGE;
    f->pages = mmap(NULL, f->capacity + 2 * PAGE, PROT_NONE,
                    MAP_PRIVATE | MAP_ANONYMOUS, -1, 0);
    if (f->pages == MAP_FAILED ||
        mprotect(f->pages + PAGE, f->capacity, PROT_READ | PROT_WRITE) != 0)
        give_up("pages");
}

const uint8_t *lend_bytes(struct fence *f, const void *bytes, size_t len,
                          bool at_end)
{
    if (f->pages == NULL || len > f->capacity)
        map_pages(f, len);
    uint8_t *to = f->pages + PAGE + (at_end ? f->capacity - len : 0);
    if (len > 0)
        memcpy(to, bytes, len);
    return to;
}
