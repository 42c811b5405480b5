#include "ask_edges.h"
#include "../call/call_abo.h"
#include "../call/call_peer.h"
#include "../call/show.h"
#include "narrow.h"

#include <stdio.h>
#include <string.h>

_Static_assert((int)NARROW_STACKS == (int)CALLS, "each call has a stack of its own");

unsigned long edge_counts[CALLS][NUMBERS];

/* The work on the narrow stack takes no arguments, so they lie here. */
static struct {
    const struct call *asked;
    struct call call; /* the same with the register that is lent */
    uint8_t *out;
    size_t room;
    struct outcome abo, peer;
} job;

static void ask_abo(void)
{
    job.abo = call_abo(&job.call, job.out, job.room);
}

static void lend_register(const struct scene *s, struct edge *e, uint8_t fill)
{
    const struct held *reg = &job.asked->reg;
    if (takes_register(job.asked->which))
        job.call.reg.bytes =
            edge_lend(e, reg->bytes, reg->len, s->register_at, fill);
}

static bool parts_kept(const struct scene *s)
{
    for (size_t i = 0; i < s->parts_used; i++)
        if (!edge_kept(&s->parts[i], 0))
            return false;
    return true;
}

/* What the library did is judged by itself as far as it can be; only then is
   the second program asked, and held to the same. */
static const char *register_fault(const struct scene *s)
{
    const struct edge *ours = &s->our_register, *theirs = &s->their_register;
    if (!takes_register(job.call.which))
        return NULL;
    if (!edge_kept(ours, register_written(&job.call, &job.abo)))
        return "bytes of the register that were not to be written have changed";
    if (!edge_kept(theirs, register_written(&job.call, &job.peer)))
        return "the second program wrote elsewhere than in the register";
    if (memcmp(ours->lent, theirs->lent, ours->len) != 0)
        return "the registers differ";
    return NULL;
}

static const char *fault_of(const struct scene *s)
{
    size_t used = (size_t)job.abo.written;
    if (used > s->ours.len)
        return "more was written than there is room for";
    if (!edge_kept(&s->ours, used))
        return "bytes that were not to be written have changed";
    if (!same_outcome(&job.abo, &job.peer))
        return "the answers differ";
    if (!edge_kept(&s->theirs, used))
        return "the second program wrote elsewhere";
    if (memcmp(s->ours.lent, s->theirs.lent, used) != 0)
        return "the bytes written differ";
    return register_fault(s);
}

/* What is lent to be read cannot be written meanwhile. */
static void call_sealed(struct scene *s)
{
    bool asks = asks_register(job.call.which);
    for (size_t i = 0; i < s->parts_used; i++)
        edge_seal(&s->parts[i]);
    if (asks)
        edge_seal(&s->our_register);
    run_narrow(job.call.which, ask_abo);
    for (size_t i = 0; i < s->parts_used; i++)
        edge_open(&s->parts[i]);
    if (asks)
        edge_open(&s->our_register);
}

const char *ask_edges(struct scene *s, const struct call *c, size_t room,
                      enum edge_at at, uint8_t fill, struct outcome *answer)
{
    job.asked = c;
    job.call = *c;
    job.room = room;
    job.out = edge_lend(&s->ours, NULL, room, at, fill);
    lend_register(s, &s->our_register, fill);
    call_sealed(s);
    bool kept = parts_kept(s);
    job.out = edge_lend(&s->theirs, NULL, room, at, fill);
    lend_register(s, &s->their_register, fill);
    job.peer = call_peer(&job.call, job.out, room);
    *answer = job.peer;
    if (!kept)
        return "bytes lent to be read have changed";
    if (!parts_kept(s))
        return "the second program changed bytes lent to be read";
    return fault_of(s);
}

void show_last_call(void)
{
    show_call(job.asked, job.room, job.out == NULL);
    show_outcome("abo: ", &job.abo);
    show_outcome("peer:", &job.peer);
}

struct outcome check_edges(struct scene *s, const char *what, uint64_t seed,
                           const struct call *c, size_t room, enum edge_at at,
                           uint8_t fill)
{
    struct outcome o;
    in_hand(what, seed, c->file.bytes, c->file.len);
    const char *fault = ask_edges(s, c, room, at, fill, &o);
    if (count_check(fault == NULL)) {
        printf("failed: %s: %s, seed %llu\n", what, fault,
               (unsigned long long)seed);
        show_last_call();
    }
    if (o.number < NUMBERS)
        edge_counts[c->which][o.number]++;
    return o;
}

/* One line for each call that was made, which fuzz.sh looks at. */
void report_edges(void)
{
    for (unsigned which = 0; which < CALLS; which++) {
        bool made = false;
        for (unsigned number = 0; number < NUMBERS; number++) {
            unsigned long count = edge_counts[which][number];
            if (count == 0)
                continue;
            printf("%s %u (%lu)", made ? "" : call_names[which], number, count);
            made = true;
        }
        if (made)
            printf("\n");
    }
    for (unsigned which = 0; which < CALLS; which++)
        printf("stack used by abo_%s: at most %zu of %d bytes\n",
               call_names[which], narrow_used(which), NARROW_STACK);
}
