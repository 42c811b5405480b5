#include "ask_statement.h"
#include "../call/call_abo.h"
#include "../call/call_peer.h"
#include "../call/lend.h"
#include "../call/show.h"
#include "../generate/dice.h"
#include "../generate/words.h"

#include <stdio.h>
#include <string.h>

static struct fence fence;
static struct room ours, theirs;
struct statement_counts statement_counts[2];

/* One call: lent bytes, what they were copied from, the room. */
struct ask {
    const char *what;
    uint64_t seed;
    struct call call;
    const uint8_t *original;
    size_t room;
    bool no_pointer;
};

/* What is wrong, or NULL.  The bytes outside are held against the fill and not
   against the peer's, so that both being wrong alike would show, too. */
static const char *fault_of(const struct ask *q, const struct outcome *a,
                            const struct outcome *p)
{
    size_t used = (size_t)a->written;
    if (!same_outcome(a, p))
        return "the answers differ";
    if (used > q->room)
        return "more was written than there is room for";
    if (!room_untouched(&ours, used) || !room_untouched(&theirs, used))
        return "bytes outside the output were touched";
    if (!same_bytes(ours.bytes, theirs.bytes, used))
        return "the bytes written differ";
    if (!same_bytes(q->call.file.bytes, q->original, q->call.file.len))
        return "what was lent to be read was changed";
    return NULL;
}

/* The kind of the record or row in which the fault lies. */
static unsigned kind_at(const struct ask *q, uint64_t number)
{
    bool rows = q->call.which == WRITES_STATEMENT;
    size_t size = rows ? ABO_STATEMENT_ROW_BYTES : ABO_RECORD_BYTES;
    size_t at = (size_t)(number - 1) * size;
    if (number == 0 || at + size > q->call.file.len)
        return OF_NONE;
    const uint8_t *from = q->original + at;
    if (rows ? number_at(from, 8) == ABO_STATEMENT_HEAD
             : memcmp(from, "074", 3) == 0)
        return OF_HEAD;
    return (rows ? number_at(from, 8) == ABO_STATEMENT_MOVEMENT
                 : memcmp(from, "075", 3) == 0)
               ? OF_MOVEMENT
               : OF_NONE;
}

/* Reading tells the record and the byte of the file, writing row and field. */
static void count_answer(const struct ask *q, const struct outcome *o)
{
    bool rows = q->call.which == WRITES_STATEMENT;
    struct statement_counts *counts = &statement_counts[rows];
    if (o->number >= NUMBERS)
        return;
    counts->numbers[o->number]++;
    if (o->number < ABO_BAD_RECORD)
        return;
    uint64_t place = o->words[1];
    if (!rows)
        place -= (o->words[0] - 1) * ABO_RECORD_BYTES;
    if (place < ABO_RECORD_BYTES)
        counts->places[o->number][kind_at(q, o->words[0])][place]++;
}

static struct outcome ask_both(const struct ask *q)
{
    lend_both(&ours, &theirs, q->room);
    in_hand(q->what, q->seed, q->original, q->call.file.len);
    struct outcome a =
        call_abo(&q->call, q->no_pointer ? NULL : ours.bytes, q->room);
    struct outcome p =
        call_peer(&q->call, q->no_pointer ? NULL : theirs.bytes, q->room);
    const char *fault = fault_of(q, &a, &p);
    if (count_check(fault == NULL)) {
        printf("failed: %s: %s, seed %llu\n", q->what, fault,
               (unsigned long long)q->seed);
        show_call(&q->call, q->room, q->no_pointer);
        show_outcome("abo: ", &a);
        show_outcome("peer:", &p);
        if (same_outcome(&a, &p)) {
            show_bytes("abo", ours.bytes, (size_t)a.written);
            show_bytes("peer", theirs.bytes, (size_t)p.written);
        }
    }
    count_answer(q, &p);
    return p;
}

uint64_t compare_statement(const char *what, uint64_t seed, enum which which,
                           const struct text *bytes)
{
    struct dice d = {~seed};
    struct ask q = {what, seed, {.which = which}, bytes->data, 0,
                    one_in(&d, 4)};
    q.call.file = (struct slice){
        lend_bytes(&fence, bytes->data, bytes->len, one_in(&d, 2)), bytes->len};
    struct outcome first = ask_both(&q);
    size_t exact = (size_t)first.needed;
    size_t size = which == READS_STATEMENT ? ABO_STATEMENT_ROW_BYTES
                                           : ABO_RECORD_BYTES;
    q.no_pointer = false;
    if (first.number != ABO_NO_ROOM) {
        q.room = below(&d, 1000);
        ask_both(&q);
        return first.number;
    }
    size_t less[] = {exact - 1, exact - size, below(&d, exact)};
    size_t rooms[3] = {exact};
    rooms[1] = PICK(&d, less);
    rooms[2] = exact + 1 + below(&d, 2 * size);
    for (size_t i = 0; i < COUNT_OF(rooms); i++) {
        q.room = rooms[i];
        ask_both(&q);
    }
    return first.number;
}

void compare_statement_once(const char *what, uint64_t seed, enum which which,
                            const uint8_t *bytes, size_t len, size_t room)
{
    struct ask q = {what, seed, {.which = which, .file = {bytes, len}}, bytes,
                    room, room == 0};
    ask_both(&q);
}
