#include "ask_read.h"
#include "../call/as_abo.h"
#include "../call/call.h"
#include "../call/lend.h"
#include "../call/show.h"
#include "../generate/dice.h"
#include "../generate/limits.h"
#include "../generate/words.h"

#include <stdio.h>
#include <string.h>

static struct fence fence;
static struct room ours, theirs;
unsigned long read_counts[LAST_SHEET + 1][READ_NUMBERS];
unsigned long each_counts[LAST_SHEET + 1][EACH_ANSWERS];

/* One call: lent bytes, what they were copied from, the other arguments. */
struct ask {
    const char *what;
    uint64_t seed;
    const uint8_t *file, *original;
    size_t len;
    uint64_t sheet, today;
    size_t room;
    bool no_pointer;
};

static bool same_answer(const struct abo_answer *a, const struct abo_answer *b)
{
    return a->number == b->number && a->line == b->line && a->byte == b->byte &&
           a->rows == b->rows && a->warnings == b->warnings &&
           a->needed == b->needed && same_header(&a->header, &b->header);
}

static void show_answer(const char *who, const struct abo_answer *a)
{
    const struct abo_header *h = &a->header;
    printf("  %s number %llu line %llu byte %llu rows %llu warnings %llu "
           "needed %llu\n",
           who, (unsigned long long)a->number, (unsigned long long)a->line,
           (unsigned long long)a->byte, (unsigned long long)a->rows,
           (unsigned long long)a->warnings, (unsigned long long)a->needed);
    printf("  %s date %llu client %llu from %llu to %llu\n", who,
           (unsigned long long)h->date, (unsigned long long)h->client,
           (unsigned long long)h->from, (unsigned long long)h->to);
    show_bytes(who, h->name, sizeof h->name);
}

/* What is wrong, or NULL.  The bytes outside are held against the fill and not
   against the peer's, so that both being wrong alike would show, too. */
static const char *fault_of(const struct ask *q, const struct abo_answer *a,
                            const struct abo_answer *p)
{
    size_t used = a->number == 0 ? (size_t)a->rows * ABO_ROW_BYTES : 0;
    if (!same_answer(a, p))
        return "the answers differ";
    if (used > q->room)
        return "more rows than there is room for";
    if (!room_untouched(&ours, used) || !room_untouched(&theirs, used))
        return "bytes outside the rows were touched";
    if (!same_bytes(ours.bytes, theirs.bytes, used))
        return "the rows differ";
    if (!same_bytes(q->file, q->original, q->len))
        return "the file was changed";
    return NULL;
}

static void show_rows(const struct abo_answer *a)
{
    unsigned shown = 0;
    for (size_t row = 0; row < (size_t)a->rows; row++)
        for (size_t word = 0; word < ABO_ROW_WORDS && shown < 20; word++) {
            uint64_t us = word_of(ours.bytes, row, word);
            uint64_t them = word_of(theirs.bytes, row, word);
            if (us != them) {
                shown++;
                printf("  row %zu word %zu: abo %llx, peer %llx\n", row + 1,
                       word, (unsigned long long)us, (unsigned long long)them);
            }
        }
}

static void show_fault(const struct ask *q, const char *fault,
                       const struct abo_answer *a, const struct abo_answer *p)
{
    printf("failed: %s: %s, seed %llu\n", q->what, fault,
           (unsigned long long)q->seed);
    printf("  sheet %llu today %llu room %zu%s\n", (unsigned long long)q->sheet,
           (unsigned long long)q->today, q->room,
           q->no_pointer ? " at NULL" : "");
    show_bytes("file", q->original, q->len);
    show_answer("abo: ", a);
    show_answer("peer:", p);
    if (a->number == 0 && same_answer(a, p))
        show_rows(a);
}

static struct abo_answer ask_both(const struct ask *q)
{
    lend_both(&ours, &theirs, q->room);
    in_hand(q->what, q->seed, q->original, q->len);
    struct abo_answer a =
        abo_read(q->file, q->len, q->sheet, q->today,
                 q->no_pointer ? NULL : ours.bytes, q->room);
    struct abo_answer p = answer_of_peer(
        peer_read(q->file, q->len, q->sheet, q->today,
                  q->no_pointer ? NULL : theirs.bytes, q->room));
    const char *fault = fault_of(q, &a, &p);
    if (count_check(fault == NULL))
        show_fault(q, fault, &a, &p);
    if (p.number < READ_NUMBERS)
        read_counts[q->sheet <= LAST_SHEET ? q->sheet : 0][p.number]++;
    return p;
}

static bool is_group(const struct ask *q, uint64_t line)
{
    struct abo_found f = abo_line(q->original, q->len, line);
    return f.len > 1 && memcmp(q->original + f.at, "2 ", 2) == 0;
}

/* The rows that were read have an account file of such a kind. */
static bool has_each(const struct ask *q, const struct abo_answer *a)
{
    for (size_t row = 0; row < (size_t)a->rows; row++)
        if (word_of(theirs.bytes, row, ABO_FIELD_ROW) == ABO_ROW_FILE &&
            judges_each((unsigned)q->sheet,
                        word_of(theirs.bytes, row, ABO_FILE_KIND)))
            return true;
    return false;
}

/* A day is refused in the first line, in a group's, or in an item's. */
static void count_each(const struct ask *q, const struct abo_answer *a)
{
    if (q->sheet > LAST_SHEET)
        return;
    unsigned long *counts = each_counts[q->sheet];
    if (a->number == ABO_ACCEPTED)
        counts[EACH_ACCEPTED] += has_each(q, a);
    else if (a->number == ABO_BAD_DAY && a->line > 1 && !is_group(q, a->line))
        counts[is_group(q, a->line - 1) ? EACH_FIRST : EACH_LATER]++;
}

void compare_file(const char *what, uint64_t seed, const struct made *m)
{
    struct dice d = {~seed};
    struct ask q = {what, seed, NULL, m->file.data, m->file.len,
                    m->sheet, m->today, 0, one_in(&d, 4)};
    q.file = lend_bytes(&fence, q.original, q.len, one_in(&d, 2));
    struct abo_answer first = ask_both(&q);
    q.no_pointer = false;
    if (first.number != 16) {
        count_each(&q, &first);
        q.room = below(&d, 1000);
        ask_both(&q);
        return;
    }
    size_t exact = (size_t)first.needed * ABO_ROW_BYTES;
    size_t less[] = {exact - 1, exact - ABO_ROW_BYTES, below(&d, exact)};
    size_t rooms[3] = {exact};
    rooms[1] = PICK(&d, less);
    rooms[2] = exact + 1 + below(&d, 2 * ABO_ROW_BYTES);
    struct abo_answer last = first;
    for (size_t i = 0; i < COUNT_OF(rooms); i++) {
        q.room = rooms[i];
        last = ask_both(&q);
    }
    count_each(&q, &last);
}

struct abo_answer
compare_call(const char *what, const uint8_t *file, size_t len, uint64_t sheet,
             uint64_t today, size_t room)
{
    struct ask q = {what, 0, file, file, len, sheet, today, room, file == NULL};
    return ask_both(&q);
}
