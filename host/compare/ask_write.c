#include "ask_write.h"
#include "../call/as_abo.h"
#include "../call/lend.h"
#include "../call/show.h"
#include "../generate/dice.h"
#include "../generate/words.h"

#include <stdio.h>

static struct fence rows_fence, texts_fence, name_fence;
static struct room ours, theirs;

unsigned long write_counts[22], write_fields[2][WRITE_THINGS][WRITE_FIELDS];

/* One call: lent bytes, what they were copied from, the room. */
struct ask {
    const char *what;
    uint64_t seed;
    const struct draft *draft;
    const uint8_t *rows, *texts, *name;
    size_t room;
    bool no_pointer;
};

static struct abo_written ask_abo(const struct ask *q)
{
    const struct draft *d = q->draft;
    return abo_write(q->rows, d->rows.len, q->texts, d->texts.len, d->date,
                     q->name, d->name_len, d->client, d->from, d->to, d->sheet,
                     d->today, q->no_pointer ? NULL : ours.bytes, q->room);
}

static struct abo_written ask_peer(const struct ask *q)
{
    const struct draft *d = q->draft;
    return written_of_peer(peer_write(
        q->rows, d->rows.len, q->texts, d->texts.len, d->date, q->name,
        d->name_len, d->client, d->from, d->to, d->sheet, d->today,
        q->no_pointer ? NULL : theirs.bytes, q->room));
}

static bool same_answer(const struct abo_written *a,
                        const struct abo_written *b)
{
    return a->number == b->number && a->row == b->row && a->field == b->field &&
           a->bytes == b->bytes;
}

/* What is wrong, or NULL. */
static const char *fault_of(const struct ask *q, const struct abo_written *a,
                            const struct abo_written *p)
{
    const struct draft *d = q->draft;
    size_t used = a->number == 0 ? (size_t)a->bytes : 0;
    if (!same_answer(a, p))
        return "the answers differ";
    if (used > q->room)
        return "more bytes than there is room for";
    if (!room_untouched(&ours, used) || !room_untouched(&theirs, used))
        return "bytes outside the output were touched";
    if (!same_bytes(ours.bytes, theirs.bytes, used))
        return "the bytes written differ";
    if (!same_bytes(q->rows, d->rows.data, d->rows.len))
        return "the rows were changed";
    if (!same_bytes(q->texts, d->texts.data, d->texts.len))
        return "the texts were changed";
    if (!same_bytes(q->name, d->name, d->name_len))
        return "the name was changed";
    return NULL;
}

static void show_answer(const char *who, const struct abo_written *a)
{
    printf("  %s number %llu row %llu field %llu bytes %llu\n", who,
           (unsigned long long)a->number, (unsigned long long)a->row,
           (unsigned long long)a->field, (unsigned long long)a->bytes);
}

/* Rows count from 1. */
static void show_row(const struct draft *d, uint64_t row)
{
    if (row == 0 || row > d->rows.len / ABO_ROW_BYTES)
        return;
    printf("  row %llu:", (unsigned long long)row);
    for (size_t word = 0; word < ABO_ROW_WORDS; word++)
        printf(" %llu", (unsigned long long)word_of(d->rows.data, (size_t)row - 1, word));
    printf("\n");
}

static void show_fault(const struct ask *q, const char *fault,
                       const struct abo_written *a, const struct abo_written *p)
{
    const struct draft *d = q->draft;
    printf("failed: %s: %s, seed %llu\n", q->what, fault,
           (unsigned long long)q->seed);
    printf("  sheet %llu today %llu room %zu, %zu bytes of rows\n",
           (unsigned long long)d->sheet, (unsigned long long)d->today, q->room,
           d->rows.len);
    printf("  date %llu client %llu from %llu to %llu\n",
           (unsigned long long)d->date, (unsigned long long)d->client,
           (unsigned long long)d->from, (unsigned long long)d->to);
    show_bytes("name", d->name, d->name_len);
    show_bytes("texts", d->texts.data, d->texts.len);
    show_answer("abo: ", a);
    show_answer("peer:", p);
    show_row(d, a->row);
    if (p->row != a->row)
        show_row(d, p->row);
    if (a->number == 0 && same_answer(a, p)) {
        show_bytes("abo", ours.bytes, (size_t)a->bytes);
        show_bytes("peer", theirs.bytes, (size_t)p->bytes);
    }
}

static void count_answer(const struct draft *d, const struct abo_written *a)
{
    unsigned thing = 0;
    if (a->number >= COUNT_OF(write_counts))
        return;
    write_counts[a->number]++;
    if (a->number < 20 || a->field >= WRITE_FIELDS)
        return;
    if (a->row > d->rows.len / ABO_ROW_BYTES) {
        thing = 4;
    } else if (a->row > 0) {
        uint64_t kind = word_of(d->rows.data, (size_t)a->row - 1, 0);
        thing = kind >= 1 && kind <= 3 ? (unsigned)kind : 4;
    }
    write_fields[a->number - 20][thing][a->field]++;
}

static struct abo_written ask_both(const struct ask *q)
{
    lend_both(&ours, &theirs, q->room);
    in_hand(q->what, q->seed, q->draft->rows.data, q->draft->rows.len);
    struct abo_written a = ask_abo(q), p = ask_peer(q);
    const char *fault = fault_of(q, &a, &p);
    if (count_check(fault == NULL))
        show_fault(q, fault, &a, &p);
    count_answer(q->draft, &p);
    return p;
}

void compare_draft(const char *what, uint64_t seed, const struct draft *draft)
{
    struct dice d = {~seed};
    bool at_end = one_in(&d, 2);
    struct ask q = {what, seed, draft, NULL, NULL, NULL, 0, one_in(&d, 4)};
    q.rows = lend_bytes(&rows_fence, draft->rows.data, draft->rows.len, at_end);
    q.texts =
        lend_bytes(&texts_fence, draft->texts.data, draft->texts.len, at_end);
    q.name = lend_bytes(&name_fence, draft->name, draft->name_len, at_end);
    if (draft->name_len == 0)
        q.name = NULL;
    if (draft->texts.len == 0 && q.no_pointer)
        q.texts = NULL;
    struct abo_written first = ask_both(&q);
    q.no_pointer = false;
    if (first.number != 16) {
        q.room = below(&d, 400);
        ask_both(&q);
        return;
    }
    size_t exact = (size_t)first.bytes, rooms[3] = {exact, exact - 1};
    if (one_in(&d, 3))
        rooms[1] = below(&d, exact);
    rooms[2] = exact + 1 + below(&d, 100);
    for (size_t i = 0; i < COUNT_OF(rooms); i++) {
        q.room = rooms[i];
        ask_both(&q);
    }
}

struct abo_written compare_once(const char *what, const struct draft *d,
                                size_t room)
{
    struct ask q = {what, 0, d, d->rows.data, d->texts.data, d->name, room, false};
    return ask_both(&q);
}

void compare_nothing(uint64_t sheet, uint64_t today)
{
    struct draft draft = {.sheet = sheet, .today = today};
    struct ask q = {"no pointers", sheet, &draft, NULL, NULL, NULL, 0, true};
    ask_both(&q);
}
