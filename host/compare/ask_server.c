#include "ask_server.h"
#include "../call/call_peer.h"
#include "../call/lend.h"
#include "../call/show.h"
#include "server_process.h"

#include <stdio.h>
#include <stdlib.h>
#include <string.h>

/* A slot is handed over when it has so many bytes, which a cache still holds;
   the largest call takes more than that. */
enum { GUARD = 32, ENOUGH_BYTES = 1 << 18 };

/* What was lent, where the server does not reach it. */
struct kept {
    struct slot slot;
    struct lent_call calls[SLOT_CALLS]; /* the slices are those of the slot */
    size_t ends[SLOT_CALLS]; /* of each call's bytes, which begin where those
                                of the call before end */
    size_t used;
    bool handed;
};

static struct kept kept[SLOTS];
static struct slot *shared;
static unsigned turn; /* the slot that is filled */

unsigned long server_counts[NUMBERS];

/* Lends bytes behind those lent before; room if there are none to copy. */
static struct lent lend(struct kept *k, struct slice s,
                        const struct lent_call *a)
{
    size_t from = k->used, at = (from + GUARD + 15) / 16 * 16 + a->skew % 16;
    k->used = at + s.len + GUARD;
    if (k->used > SLOT_BYTES) {
        printf("failed: seed %llu asks for more bytes than a slot has\n",
               (unsigned long long)a->seed);
        exit(2);
    }
    memset(k->slot.bytes + from, a->fill, k->used - from);
    if (s.bytes != NULL)
        memcpy(k->slot.bytes + at, s.bytes, s.len);
    return (struct lent){at, s.len};
}

static void lend_call(struct kept *k, const struct lent_call *a)
{
    const struct call *c = &a->call;
    struct request r = request_of_call(c);
    r.file = lend(k, c->file, a);
    if (c->which == WRITES) {
        r.texts = lend(k, c->texts, a);
        r.name = lend(k, c->name, a);
    }
    if (takes_register(c->which))
        r.reg = lend(k, (struct slice){c->reg.bytes, c->reg.len}, a);
    if (r.reg.len == 0 && a->no_pointer)
        r.reg.place = NOWHERE;
    r.out = lend(k, (struct slice){NULL, a->room}, a);
    if (a->room == 0 && a->no_pointer)
        r.out.place = NOWHERE;
    size_t place = k->slot.count++;
    k->slot.requests[place] = r;
    k->calls[place] = *a;
    k->calls[place].call = call_of_request(&r, k->slot.bytes);
    k->ends[place] = k->used;
}

static bool same_from(const struct kept *k, const uint8_t *theirs, size_t from,
                      size_t to)
{
    return memcmp(k->slot.bytes + from, theirs + from, to - from) == 0;
}

/* Is all that the call was lent as it was, but for the bytes written, of the
   register so many and of the room, which is lent behind it, so many? */
static bool rest_kept(const struct kept *k, size_t place,
                      const uint8_t *theirs, size_t of_register, size_t used)
{
    const struct request *r = &k->slot.requests[place];
    size_t begin = place == 0 ? 0 : k->ends[place - 1], end = k->ends[place];
    size_t first = r->out.place == NOWHERE ? end : (size_t)r->out.place;
    size_t reg = of_register == 0 ? first : (size_t)r->reg.place;
    return same_from(k, theirs, begin, reg) &&
           same_from(k, theirs, reg + of_register, first) &&
           same_from(k, theirs, first + used, end);
}

/* The second program is lent a register of its own. */
static struct room their_register;

static struct call with_register(const struct lent_call *a)
{
    struct call c = a->call;
    if (c.reg.len == 0)
        return c;
    lend_room(&their_register, c.reg.len, a->skew, a->fill);
    memcpy(their_register.bytes, c.reg.bytes, c.reg.len);
    c.reg.bytes = their_register.bytes;
    return c;
}

/* Has it written no more than so many bytes of that? */
static bool register_kept(const struct call *c, size_t written)
{
    size_t len = c->reg.len;
    return len == 0 ||
           (written <= len && room_untouched(&their_register, len) &&
            same_bytes(their_register.bytes + written, c->reg.bytes + written,
                       len - written));
}

/* What is wrong, or NULL. */
static const char *fault_of(const struct kept *k, size_t place,
                            const struct slot *s, const struct outcome *p,
                            const struct room *theirs)
{
    const struct request *r = &k->slot.requests[place];
    const struct call *c = &k->calls[place].call;
    size_t used = (size_t)p->written, of_register = register_written(c, p);
    if (!room_untouched(theirs, used) || !register_kept(c, of_register))
        return "the second program wrote elsewhere";
    if (!same_outcome(&s->requests[place].answer, p))
        return "the answers differ";
    if (!rest_kept(k, place, s->bytes, of_register, used))
        return "bytes that were not to be written have changed";
    if (used > 0 && memcmp(s->bytes + r->out.place, theirs->bytes, used) != 0)
        return "the bytes written differ";
    if (of_register > 0 && memcmp(s->bytes + r->reg.place,
                                  their_register.bytes, of_register) != 0)
        return "the registers differ";
    return NULL;
}

static void show_fault(const struct lent_call *a, const char *fault,
                       const struct outcome *abo, const struct outcome *peer)
{
    printf("failed: %s: %s, seed %llu\n", call_names[a->call.which], fault,
           (unsigned long long)a->seed);
    show_call(&a->call, a->room, a->no_pointer && a->room == 0);
    if (abo != NULL)
        show_outcome("abo: ", abo);
    if (peer != NULL)
        show_outcome("peer:", peer);
}

static void compare_call(const struct kept *k, size_t place,
                         const struct slot *s)
{
    static struct room theirs;
    const struct lent_call *a = &k->calls[place];
    lend_room(&theirs, a->room, a->skew, a->fill);
    in_hand(call_names[a->call.which], a->seed, a->call.file.bytes,
            a->call.file.len);
    struct call c = with_register(a);
    struct outcome p =
        call_peer(&c, a->no_pointer && a->room == 0 ? NULL : theirs.bytes,
                  a->room);
    const char *fault = fault_of(k, place, s, &p, &theirs);
    if (count_check(fault == NULL))
        show_fault(a, fault, &s->requests[place].answer, &p);
    if (p.number < NUMBERS)
        server_counts[p.number]++;
}

static void compare_slot(unsigned number)
{
    struct kept *k = &kept[number];
    const struct slot *s = &shared[number];
    if (!take_slot(number)) {
        const struct lent_call *a = &k->calls[s->made % SLOT_CALLS];
        count_check(false);
        show_fault(a, "the server ended in this call", NULL, NULL);
        exit(last_line());
    }
    for (size_t place = 0; place < k->slot.count; place++)
        compare_call(k, place, s);
    k->handed = false;
    k->slot.count = 0;
    k->used = 0;
}

/* The server goes on with this slot while the other is compared. */
static void hand_over(void)
{
    struct kept *k = &kept[turn];
    struct slot *s = &shared[turn];
    s->count = k->slot.count;
    s->made = 0;
    memcpy(s->requests, k->slot.requests,
           k->slot.count * sizeof *k->slot.requests);
    memcpy(s->bytes, k->slot.bytes, k->used);
    k->handed = true;
    hand_slot(turn);
    turn = (turn + 1) % SLOTS;
    if (kept[turn].handed)
        compare_slot(turn);
}

void begin_asking(char **command)
{
    shared = start_server(command);
}

void ask_server(const struct lent_call *a)
{
    struct kept *k = &kept[turn];
    lend_call(k, a);
    if (k->slot.count == SLOT_CALLS || k->used >= ENOUGH_BYTES)
        hand_over();
}

void end_asking(void)
{
    if (kept[turn].slot.count > 0)
        hand_over();
    for (unsigned i = 0; i < SLOTS; i++, turn = (turn + 1) % SLOTS)
        if (kept[turn].handed)
            compare_slot(turn);
    check(end_server(), "the server did not end well");
}
