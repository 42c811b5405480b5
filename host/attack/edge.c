#define _DEFAULT_SOURCE /* for mprotect */
#include "edge.h"
#include "../call/show.h"

#include <string.h>
#include <sys/mman.h>

enum { OPEN_SIDE = 512 };

/* Where the fence's own pages begin. */
static uint8_t *first_byte(struct edge *e)
{
    return (uint8_t *)lend_bytes(&e->fence, NULL, 0, false);
}

uint8_t *edge_lend(struct edge *e, const uint8_t *bytes, size_t len,
                   enum edge_at at, uint8_t fill)
{
    struct text *kept = &e->kept;
    edge_open(e);
    text_clear(kept);
    if (bytes == NULL)
        text_repeat(kept, fill, len);
    else
        text_bytes(kept, bytes, len);
    e->lent = (uint8_t *)lend_bytes(&e->fence, kept->data, len, at == AT_BACK);
    e->len = len;
    size_t open = e->fence.capacity - len;
    if (open > OPEN_SIDE)
        open = OPEN_SIDE;
    e->watched = at == AT_BACK ? e->lent - open : e->lent;
    memset(at == AT_BACK ? e->watched : e->lent + len, fill, open);
    text_clear(kept);
    text_bytes(kept, e->watched, len + open);
    return len == 0 && at == AT_NULL ? NULL : e->lent;
}

bool edge_kept(const struct edge *e, size_t used)
{
    size_t before = (size_t)(e->lent - e->watched), behind = before + used;
    return used <= e->len &&
           memcmp(e->watched, e->kept.data, before) == 0 &&
           memcmp(e->watched + behind, e->kept.data + behind,
                  e->kept.len - behind) == 0;
}

static void protect(struct edge *e, size_t len, int how)
{
    if (len > 0 && mprotect(first_byte(e), len, how) != 0)
        give_up("pages");
}

void edge_seal(struct edge *e)
{
    e->sealed = e->fence.pages == NULL ? 0 : e->fence.capacity;
    protect(e, e->sealed, PROT_READ);
}

void edge_open(struct edge *e)
{
    protect(e, e->sealed, PROT_READ | PROT_WRITE);
    e->sealed = 0;
}
