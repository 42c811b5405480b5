#include "shared_calls.h"

struct request request_of_call(const struct call *c)
{
    return (struct request){
        .which = c->which,
        .sheet = c->sheet,
        .today = c->today,
        .date = c->date,
        .client = c->client,
        .from = c->from,
        .to = c->to,
        .line = c->line,
        .given = c->given,
    };
}

static struct held held_of(struct lent l, uint8_t *bytes)
{
    uint8_t *at = l.place == NOWHERE ? NULL : bytes + l.place;
    return (struct held){at, (size_t)l.len};
}

static struct slice slice_of(struct lent l, uint8_t *bytes)
{
    struct held h = held_of(l, bytes);
    return (struct slice){h.bytes, h.len};
}

struct call call_of_request(const struct request *r, uint8_t *bytes)
{
    return (struct call){
        .which = (enum which)r->which,
        .file = slice_of(r->file, bytes),
        .texts = slice_of(r->texts, bytes),
        .name = slice_of(r->name, bytes),
        .date = r->date,
        .client = r->client,
        .from = r->from,
        .to = r->to,
        .sheet = r->sheet,
        .today = r->today,
        .line = r->line,
        .reg = held_of(r->reg, bytes),
        .given = r->given,
    };
}
