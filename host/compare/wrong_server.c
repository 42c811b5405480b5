/*
 * A server like library_server.c, but every hundredth call goes wrong, each
 * time in another way.  The comparison must find them all.
 */
#include "../call/call_abo.h"
#include "server.h"

enum { EVERY = 100, WAYS = 10 };

static uint8_t *writable(const uint8_t *bytes)
{
    return (uint8_t *)(uintptr_t)bytes;
}

/* Spoils the answer where the call has no such byte. */
static struct outcome spoilt(unsigned way, const struct call *c, uint8_t *out,
                             size_t room, struct outcome o)
{
    if (way == 0 && o.written > 0)
        out[o.written - 1] ^= 1;
    else if (way == 1 && out != NULL)
        out[room] ^= 1;
    else if (way == 2 && out != NULL)
        out[-1] ^= 1;
    else if (way == 3 && c->file.len > 0)
        *writable(c->file.bytes) ^= 1;
    else if (way == 4 && out != NULL && o.written < room)
        out[o.written] ^= 1;
    else if (way == 5)
        o.name[ABO_NAME_BYTES - 1] ^= 1;
    else if (way == 6 && c->reg.len > 0)
        c->reg.bytes[0] ^= 1;
    else if (way == 7 && c->reg.len > 0)
        c->reg.bytes[c->reg.len - 1] ^= 1;
    else if (way == 8 && c->reg.bytes != NULL)
        c->reg.bytes[c->reg.len] ^= 1;
    else
        o.words[0]++;
    return o;
}

static struct outcome call_wrong(const struct call *c, uint8_t *out,
                                 size_t room)
{
    static unsigned turn;
    struct outcome o = call_abo(c, out, room);
    turn++;
    return turn % EVERY == 0 ? spoilt(turn / EVERY % WAYS, c, out, room, o) : o;
}

int main(void)
{
    return run_server(call_wrong);
}
