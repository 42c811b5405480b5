/* The library's calls made by a server (shared_calls.h), one at a time: in the
   place of call_abo.c in a program that cannot link the archive.  SERVER has
   the words that start the server, divided by single spaces. */
#include "../call/call_abo.h"
#include "../compare/server_process.h"

#include <stdio.h>
#include <stdlib.h>
#include <string.h>

enum { GUARD = 64, WORDS = 8, FILL = 0xb7 };

static struct slot *slots;
static struct slot kept; /* what was lent */
static size_t used;

static void stop(const char *why)
{
    printf("failed: %s\n", why);
    fflush(stdout);
    abort();
}

static void start(void)
{
    static char *words[WORDS + 1];
    size_t count = 0;
    char *server = getenv("SERVER");
    if (server == NULL)
        stop("SERVER does not say how to start the server");
    for (char *word = strtok(server, " "); word != NULL && count < WORDS;
         word = strtok(NULL, " "))
        words[count++] = word;
    slots = start_server(words);
}

static struct lent lend(const uint8_t *bytes, size_t len)
{
    size_t at = used + GUARD;
    if (at + len + GUARD > SLOT_BYTES)
        stop("the call has more bytes than a slot");
    memset(kept.bytes + used, FILL, len + 2 * GUARD);
    if (bytes != NULL)
        memcpy(kept.bytes + at, bytes, len);
    used = at + len + GUARD;
    return (struct lent){bytes == NULL ? NOWHERE : at, len};
}

/* Has the server left these bytes as they were lent? */
static bool same_from(size_t from, size_t to)
{
    return memcmp(slots[0].bytes + from, kept.bytes + from, to - from) == 0;
}

struct outcome call_abo(const struct call *c, uint8_t *out, size_t room)
{
    if (slots == NULL)
        start();
    used = 0;
    struct request r = request_of_call(c);
    r.file = lend(c->file.bytes, c->file.len);
    r.texts = lend(c->texts.bytes, c->texts.len);
    r.name = lend(c->name.bytes, c->name.len);
    r.reg = lend(c->reg.bytes, c->reg.len);
    size_t reg = used - GUARD - c->reg.len;
    size_t may_change = asks_register(c->which) ? 0 : c->reg.len;
    r.out = lend(out, room);
    size_t first = used - GUARD - room;
    slots[0].count = 1;
    slots[0].requests[0] = r;
    memcpy(slots[0].bytes, kept.bytes, used);
    hand_slot(0);
    if (!take_slot(0))
        stop("the server ended in the call");
    if (!same_from(0, reg) || !same_from(reg + may_change, first) ||
        !same_from(first + room, used))
        stop("bytes around what may change, or lent to be read, have changed");
    if (may_change > 0)
        memcpy(c->reg.bytes, slots[0].bytes + reg, may_change);
    if (out != NULL)
        memcpy(out, slots[0].bytes + first, room);
    return slots[0].requests[0].answer;
}
