#include "ask_register.h"
#include "../call/call_abo.h"
#include "../call/call_peer.h"
#include "../call/lend.h"
#include "../call/show.h"

#include <stdio.h>
#include <string.h>

static struct fence fence;
static struct room our_rows, their_rows, our_register, their_register;
unsigned long register_counts[CALLS][LAST_SHEET + 1][NUMBERS];
unsigned long ill_counts[CALLS][ILLS];
unsigned long not_taken_counts[NOT_TAKEN_CAUSES];

/* A call whose slices are lent; what they were copied from; the room. */
struct ask {
    struct call lent;
    const struct call *original;
    size_t room;
    bool no_pointers; /* where nothing is lent */
};

/* Zeros behind a register that is too short would make it a whole one, so every
   other one stands between zeros. */
static void lend_registers(size_t len)
{
    static uint8_t turn;
    turn = (uint8_t)(turn * 5 + 113); /* even and odd in turn */
    uint8_t fill = turn % 2 == 0 ? 0 : turn;
    lend_room(&our_register, len, turn >> 4, fill);
    lend_room(&their_register, len, turn >> 2, fill);
}

/* Without pointers at times where there are no bytes. */
static uint8_t *pointer(const struct ask *q, struct room *r)
{
    return q->no_pointers && r->len == 0 ? NULL : r->bytes;
}

static struct outcome make_call(struct ask *q, caller *make, struct room *rows,
                                struct room *reg)
{
    if (q->lent.reg.len > 0)
        memcpy(reg->bytes, q->original->reg.bytes, q->lent.reg.len);
    q->lent.reg.bytes = pointer(q, reg);
    return make(&q->lent, pointer(q, rows), q->room);
}

/* Of the register's bytes those behind what the call may write are as they
   were. */
static bool register_kept(const struct ask *q, const struct outcome *o,
                          const struct room *reg)
{
    const struct held *before = &q->original->reg;
    size_t used = register_written(q->original, o);
    return used <= before->len && room_untouched(reg, before->len) &&
           (used == before->len ||
            same_bytes(reg->bytes + used, before->bytes + used,
                       before->len - used));
}

/* What is wrong, or NULL.  The bytes outside are held against what they were
   and not against the peer's, so that both being wrong alike would show, too. */
static const char *fault_of(const struct ask *q, const struct outcome *a,
                            const struct outcome *p)
{
    size_t used = (size_t)a->written;
    if (!same_outcome(a, p))
        return "the answers differ";
    if (used > q->room)
        return "more rows than there is room for";
    if (!room_untouched(&our_rows, used) || !room_untouched(&their_rows, used))
        return "bytes outside the rows were touched";
    if (!same_bytes(our_rows.bytes, their_rows.bytes, used))
        return "the rows differ";
    if (!register_kept(q, a, &our_register) ||
        !register_kept(q, p, &their_register))
        return "bytes of the register, or around it, were touched";
    if (!same_bytes(our_register.bytes, their_register.bytes, q->lent.reg.len))
        return "the registers differ";
    if (!same_bytes(q->lent.file.bytes, q->original->file.bytes,
                    q->lent.file.len))
        return "the file was changed";
    return NULL;
}

static void show_fault(const struct ask *q, const char *what, uint64_t seed,
                       const char *fault)
{
    printf("failed: %s: %s, seed %llu\n", what, fault,
           (unsigned long long)seed);
    show_call(q->original, q->room, q->no_pointers && q->room == 0);
    show_bytes("abo's register", our_register.bytes, our_register.len);
    show_bytes("peer's register", their_register.bytes, their_register.len);
}

static void count_not_taken(uint64_t given)
{
    uint64_t lost = given & UINT32_MAX;
    not_taken_counts[given < ABO_REGISTER_NUMBERS  ? IS_FREE
                     : given < MARK_ROOM           ? IS_STRAY
                     : lost < ABO_REGISTER_NUMBERS ? IS_WIDE
                                                   : HAS_NO_BIT]++;
}

static void count_answer(const struct call *c, const struct outcome *o)
{
    bool on_sheet = c->which == READS_REGISTERED && c->sheet <= LAST_SHEET;
    if (o->number < NUMBERS)
        register_counts[c->which][on_sheet ? c->sheet : 0][o->number]++;
    if (o->number == ABO_BAD_REGISTER)
        ill_counts[c->which][ill_of(c->reg.bytes, c->reg.len)]++;
    if (o->number == ABO_NOT_TAKEN)
        count_not_taken(c->given);
}

struct left ask_register(const char *what, uint64_t seed, const struct call *c,
                         size_t room)
{
    struct ask q = {*c, c, room, seed / 2 % 2 == 0};
    if (q.lent.file.len > 0 || !q.no_pointers)
        q.lent.file.bytes = lend_bytes(&fence, c->file.bytes, c->file.len,
                                       seed % 2 == 0);
    lend_both(&our_rows, &their_rows, room);
    lend_registers(c->reg.len);
    in_hand(what, seed, c->file.bytes, c->file.len);
    struct outcome a = make_call(&q, call_abo, &our_rows, &our_register);
    struct outcome p = make_call(&q, call_peer, &their_rows, &their_register);
    const char *fault = fault_of(&q, &a, &p);
    if (count_check(fault == NULL)) {
        show_fault(&q, what, seed, fault);
        show_outcome("abo: ", &a);
        show_outcome("peer:", &p);
    }
    count_answer(c, &p);
    return (struct left){a, our_rows.bytes, our_register.bytes};
}
