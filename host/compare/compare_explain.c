/*
 * abo_explain and abo_findings against the second program's: the answer, the
 * text or the findings and the bytes around them, on generated files, corner
 * files and files with one item, account file or number too many.  A list is held to reading too: the finding of a refused file
 * stands where reading refuses it, an accepted one has as many as reading counts
 * warnings, and their places never go back.
 *
 *   compare_explain [FILES [SEED [STEP]]]     as seeds.h says
 */
#include <stdio.h>
#include <string.h>

#include "../call/call_abo.h"
#include "../call/call_made.h"
#include "../call/call_peer.h"
#include "../call/lend.h"
#include "../call/show.h"
#include "../generate/corners.h"
#include "../generate/dice.h"
#include "../generate/large.h"
#include "../generate/limits.h"
#include "../generate/seeds.h"

enum { ENOUGH = 20000, CAUSES = ABO_CAUSE_WARNED_PRIORITY + 1 };

static struct fence fence;
static struct room ours, theirs;
static unsigned long counts[CALLS][NUMBERS], causes[CAUSES];

static const char *fault_of(const struct outcome *a, const struct outcome *p,
                            const struct call *c, const struct made *m)
{
    size_t used = (size_t)a->written;
    if (!same_outcome(a, p))
        return "the answers differ";
    if (!room_untouched(&ours, used) || !room_untouched(&theirs, used))
        return "bytes outside the output were touched";
    if (!same_bytes(ours.bytes, theirs.bytes, used))
        return "what was written differs";
    if (!same_bytes(c->file.bytes, m->file.data, m->file.len))
        return "the file was changed";
    return NULL;
}

static struct outcome ask_both(const char *what, uint64_t seed,
                               const struct made *m, const struct call *c,
                               size_t room)
{
    lend_both(&ours, &theirs, room);
    in_hand(what, seed, m->file.data, m->file.len);
    struct outcome a = call_abo(c, room == 0 ? NULL : ours.bytes, room);
    struct outcome p = call_peer(c, room == 0 ? NULL : theirs.bytes, room);
    const char *fault = fault_of(&a, &p, c, m);
    counts[c->which][p.number]++;
    if (count_check(fault == NULL)) {
        printf("failed: %s: %s, seed %llu\n", what, fault,
               (unsigned long long)seed);
        show_call(c, room, room == 0);
        show_outcome("abo: ", &a);
        show_bytes("abo: ", ours.bytes, (size_t)a.written);
        show_outcome("peer:", &p);
        show_bytes("peer:", theirs.bytes, (size_t)p.written);
    }
    return a;
}

/* With no room, one byte too few, just what is needed, and more. */
static struct outcome compare_call(const char *what, uint64_t seed,
                                   const struct made *m, const struct call *c)
{
    struct dice d = {~seed};
    size_t exact = (size_t)ask_both(what, seed, m, c, 0).needed;
    if (exact > 0)
        ask_both(what, seed, m, c, exact - 1);
    ask_both(what, seed, m, c, exact + 1 + below(&d, 100));
    return ask_both(what, seed, m, c, exact);
}

static bool in_order(const struct abo_finding *list, uint64_t count)
{
    for (uint64_t i = 1; i < count; i++)
        if (list[i].byte < list[i - 1].byte || list[i].line < list[i - 1].line)
            return false;
    return true;
}

/* The findings lie in our room, at any alignment. */
static void check_list(const struct call *c, const struct outcome *list)
{
    static struct abo_finding found[1000];
    struct abo_answer a = abo_read(c->file.bytes, c->file.len, c->sheet,
                                   c->today, NULL, 0);
    uint64_t count = list->words[1];
    bool refused = a.number != ABO_ACCEPTED && a.number != ABO_NO_ROOM;
    if (list->number != ABO_ACCEPTED || count > COUNT_OF(found))
        return;
    if (count > 0)
        memcpy(found, ours.bytes, (size_t)list->written);
    check(list->words[0] == refused, "another file is refused by its list");
    check(!refused || (count == 1 && found[0].number == a.number &&
                       found[0].line == a.line && found[0].byte == a.byte),
          "a refused file's finding stands elsewhere");
    check(refused == !(list->words[3] >> (c->sheet - 1) & 1),
          "the sheet asked for has another bit");
    check(in_order(found, count), "places of findings go back");
    for (uint64_t i = 0; i < count; i++) {
        check(found[i].byte + found[i].length <= c->file.len,
              "bytes are found that the file does not have");
        if (found[i].cause < CAUSES)
            causes[found[i].cause]++;
    }
}

/* How many warnings reading counts; no file of these has more rows. */
static void check_warnings(const struct call *c, const struct outcome *list)
{
    static union abo_row rows[20000];
    struct abo_answer a = abo_read_rows(c->file.bytes, c->file.len, c->sheet,
                                        c->today, rows, COUNT_OF(rows));
    if (a.number == ABO_ACCEPTED)
        check(list->words[1] == a.warnings,
              "there are as many findings as warnings");
}

static void compare_file(const char *what, uint64_t seed, const struct made *m)
{
    struct dice d = {~seed};
    struct call c = call_of_made(EXPLAINS, m);
    c.file.bytes = lend_bytes(&fence, m->file.data, m->file.len, one_in(&d, 2));
    compare_call(what, seed, m, &c);
    c.which = LISTS;
    struct outcome list = compare_call(what, seed, m, &c);
    check_list(&c, &list);
    check_warnings(&c, &list);
}

/* What no generated file has, or hardly one. */
static void compare_rare(void)
{
    static const struct {
        unsigned sheet;
        struct bulk bulk;
    } bulks[] = {{K, {.files = 1001, .groups = 1, .items = 1}},
                 {S, {.files = 1, .groups = 1, .items = 1001}},
                 {C, {.files = 1, .groups = 1, .items = 100000}}};
    struct made made = {0};
    for (unsigned i = 0; i < COUNT_OF(bulks); i++) {
        make_bulk(&made, bulks[i].sheet, &bulks[i].bulk);
        compare_file("bulk", i, &made);
    }
    for (unsigned which = 0; which < PARTNERS; which++) {
        make_pair(&made, 7, partner_of(7, which));
        compare_file("pair of numbers", which, &made);
    }
    text_free(&made.file);
}

static void report(struct seeds seeds)
{
    static const unsigned numbers[] = {ABO_ACCEPTED, ABO_BAD_SHEET,
                                       ABO_BAD_TODAY, ABO_NO_ROOM};
    static const unsigned all[] = {
        30,  31,  32,  33,  34,  35,  36,  40,  41,   42,   43,   50,   51,
        52,  60,  61,  70,  80,  90,  91,  92,  100,  101,  110,  111,  112,
        113, 114, 120, 130, 131, 140, 141, 142, 143,  144,  150,  151,  152,
        1010, 1011, 1012, 1013, 1014};
    bool tested = are_enough(seeds, ENOUGH);
    for (size_t i = 0; i < COUNT_OF(numbers); i++) {
        printf("number %2u: %lu explained, %lu listed\n", numbers[i],
               counts[EXPLAINS][numbers[i]], counts[LISTS][numbers[i]]);
        if (tested)
            check(counts[EXPLAINS][numbers[i]] > 0 &&
                      counts[LISTS][numbers[i]] > 0,
                  "a number never came");
    }
    printf("causes");
    for (size_t i = 0; i < COUNT_OF(all); i++) {
        printf(" %u (%lu)", all[i], causes[all[i]]);
        if (tested)
            check(causes[all[i]] > 0, "a cause never came");
    }
    printf("\n");
}

int main(int argc, char **argv)
{
    struct seeds seeds = take_seeds(argc, argv, 100000);
    struct made made = {0};
    catch_crashes();
    for (uint64_t i = 0; i < seeds.count; i++) {
        generate(&made, seeds.first + i);
        compare_file("generated file", seeds.first + i, &made);
    }
    for (unsigned sheet = K; sheet <= LAST_SHEET; sheet++)
        for (unsigned i = first_step(seeds, sheet);
             corner_file(&made, sheet, i); i += seeds.step)
            compare_file("corner file", i, &made);
    text_free(&made.file);
    compare_rare();
    report(seeds);
    return last_line();
}
