/*
 * An attack on the twelve calls.  Every slice is lent at the edge of a page
 * that nobody may touch, of no length at times, or at NULL; slices to be read
 * lie over one another; numbers come from all 64 bits; files, rows and registers
 * are valid, next to valid, or without sense.  Each call is made on a stack of
 * 64 KiB and compared with the second program, and all bytes that it may not
 * write are looked at behind it.
 *
 *   attack [ROUNDS [SEED]]     as seeds.h says
 */
#include <stdio.h>
#include <string.h>

#include "../call/call_made.h"
#include "../call/call_peer.h"
#include "../call/show.h"
#include "../generate/collections.h"
#include "../generate/damage.h"
#include "../generate/draw_draft.h"
#include "../generate/generate.h"
#include "../generate/large.h"
#include "../generate/numbered.h"
#include "../generate/plan.h"
#include "../generate/registers.h"
#include "../generate/seeds.h"
#include "../generate/spoil_statement.h"
#include "../generate/statements.h"
#include "../generate/wild.h"
#include "ask_edges.h"

enum { ENOUGH = 20000 };

static struct scene scene;

/* The round in hand. */
static struct dice dice;
static uint64_t round_seed;

static enum edge_at any_edge(void)
{
    return (enum edge_at)below(&dice, 3);
}

static struct outcome ask(const char *what, const struct call *c, size_t room)
{
    enum edge_at at = any_edge();
    uint8_t fill = (uint8_t)roll(&dice);
    if (takes_register(c->which))
        scene.register_at = any_edge();
    return check_edges(&scene, what, round_seed, c, room, at, fill);
}

/* With no room; then with less than it takes, with more and with just that, if
   room is all that is wanting, else with any.  Gives back the last answer. */
static struct outcome ask_rooms(const char *what, const struct call *c)
{
    struct outcome o = ask(what, c, 0);
    if (o.number != 16)
        return ask(what, c, below(&dice, 1000));
    size_t exact = (size_t)o.needed, least = one_in(&dice, 2) ? exact - 1 : 0;
    ask(what, c, between(&dice, least, exact - 1));
    ask(what, c, exact + between(&dice, 1, 2 * ABO_ROW_BYTES));
    return ask(what, c, exact);
}

/* Lends bytes in one of the scene's parts. */
static struct slice lend_part(size_t part, const uint8_t *bytes, size_t len)
{
    struct edge *e = &scene.parts[part];
    enum edge_at at = any_edge();
    struct slice s = {edge_lend(e, bytes, len, at, telling_byte(&dice)), len};
    if (scene.parts_used <= part)
        scene.parts_used = part + 1;
    return s;
}

/* Some bytes of a slice; of none, none. */
static struct slice some_of(struct slice s, size_t len)
{
    if (s.bytes == NULL || s.len < len)
        return (struct slice){s.bytes, 0};
    return (struct slice){s.bytes + below(&dice, s.len - len + 1), len};
}

/* Rows, texts and name in one: what was valid stays so, since the texts keep
   their places. */
static void lend_together(struct call *c, const struct draft *draft)
{
    static struct text all;
    text_clear(&all);
    text_bytes(&all, draft->texts.data, draft->texts.len);
    text_bytes(&all, draft->name, draft->name_len);
    text_bytes(&all, draft->rows.data, draft->rows.len);
    c->texts = lend_part(0, all.data, all.len);
    const uint8_t *behind = c->texts.bytes;
    if (behind != NULL)
        behind += draft->texts.len;
    c->name = (struct slice){behind, draft->name_len};
    if (behind != NULL)
        behind += draft->name_len;
    c->file = (struct slice){behind, draft->rows.len};
    if (one_in(&dice, 3)) /* the texts end in the midst of a row */
        c->texts.len = between(&dice, draft->texts.len, all.len);
}

/* The texts begin in the rows and end behind them. */
static void lend_across(struct call *c, const struct draft *draft)
{
    static struct text all;
    size_t before = below(&dice, draft->rows.len + 1);
    text_clear(&all);
    text_bytes(&all, draft->rows.data, draft->rows.len);
    text_bytes(&all, draft->texts.data, draft->texts.len);
    struct slice s = lend_part(0, all.data, all.len);
    c->file = (struct slice){s.bytes, draft->rows.len};
    c->texts = (struct slice){s.bytes, all.len};
    if (s.bytes != NULL)
        c->texts = (struct slice){s.bytes + before, all.len - before};
    c->name = some_of(s, draft->name_len);
}

static void lend_draft(struct call *c, const struct draft *draft)
{
    scene.parts_used = 0;
    switch (below(&dice, 5)) {
    case 0:
        lend_together(c, draft);
        return;
    case 1:
        lend_across(c, draft);
        return;
    case 2: /* the same bytes */
        c->file = lend_part(0, draft->rows.data, draft->rows.len);
        c->texts = c->file;
        c->name = some_of(c->texts, draft->name_len);
        return;
    case 3: /* the name in the texts */
        c->file = lend_part(0, draft->rows.data, draft->rows.len);
        c->texts = lend_part(1, draft->texts.data, draft->texts.len);
        c->name = some_of(c->texts, draft->name_len);
        return;
    default:
        c->file = lend_part(0, draft->rows.data, draft->rows.len);
        c->texts = lend_part(1, draft->texts.data, draft->texts.len);
        c->name = lend_part(2, draft->name, draft->name_len);
    }
}

/* At times one number of the call is wild, or the sheet is another. */
static void wild_arguments(struct call *c)
{
    uint64_t *const numbers[] = {&c->sheet, &c->today, &c->date,
                                 &c->client, &c->from, &c->to};
    size_t count = c->which == WRITES ? COUNT_OF(numbers) : 2;
    uint64_t *number = numbers[below(&dice, count)];
    if (one_in(&dice, 6))
        *number = wild_number(&dice, *number);
    else if (one_in(&dice, 10))
        c->sheet = between(&dice, K, LAST_SHEET);
}

static void attack_draft(const char *what, const struct draft *draft)
{
    struct call c = call_of_draft(draft);
    lend_draft(&c, draft);
    wild_arguments(&c);
    ask_rooms(what, &c);
}

/* Is it only room that is wanting? */
static bool is_valid(const struct draft *d)
{
    struct call c = call_of_draft(d);
    return call_peer(&c, NULL, 0).number == ABO_NO_ROOM;
}

/* Draws until one is valid, as some one in four is, but not for ever. */
static void draw_valid(struct draft *draft)
{
    for (unsigned tries = 0; tries < 20; tries++) {
        draw_draft(draft, roll(&dice));
        if (is_valid(draft))
            return;
    }
}

/* Slices of no length, all of them at times. */
static void empty_some(struct draft *draft)
{
    uint64_t which = between(&dice, 1, 7);
    if (which & 1)
        draft->rows.len = 0;
    if (which & 2)
        draft->texts.len = 0;
    if (which & 4)
        draft->name_len = 0;
}

static void attack_rows(void)
{
    static struct draft draft;
    draw_valid(&draft);
    switch (below(&dice, 8)) {
    case 0:
        wild_rows(&draft.rows, &dice);
        attack_draft("rows without sense", &draft);
        return;
    case 1:
        wild_length(&draft.rows, &dice);
        attack_draft("rows and a part of one", &draft);
        return;
    case 2:
        empty_some(&draft);
        attack_draft("empty slices", &draft);
        return;
    case 3:
        attack_draft("rows", &draft);
        return;
    default:
        wild_word(&draft.rows, draft.texts.len, &dice);
        attack_draft("rows with a wild word", &draft);
    }
}

/* The rows that a file gave are written with the file itself as the texts, and
   with the name where it stands in the file. */
static void write_what_was_read(struct call c, const struct outcome *read)
{
    enum { NAME_AT = 10, NAME = ABO_NAME_BYTES };
    static struct text rows;
    if (c.file.len < NAME_AT + NAME) /* no file that says a batch is */
        return;
    text_clear(&rows);
    text_bytes(&rows, scene.ours.lent, (size_t)read->written);
    if (one_in(&dice, 3))
        wild_word(&rows, c.file.len, &dice);
    c.which = WRITES;
    c.texts = c.file;
    c.name = (struct slice){c.file.bytes + NAME_AT, NAME};
    c.file = lend_part(1, rows.data, rows.len);
    give_header(&c, read);
    wild_arguments(&c);
    ask_rooms("what was read", &c);
}

/* The line that was refused, if one was, and any other. */
static void find_lines(const char *what, struct call c, uint64_t refused)
{
    c.which = FINDS;
    c.line = refused;
    ask(what, &c, 0);
    c.line = below(&dice, 16);
    ask(what, &c, 0);
    c.line = wild_number(&dice, c.line);
    ask(what, &c, 0);
}

/* Bytes of any value, which seldom are a register, or one that is drawn for a
   file. */
static void any_register(struct text *reg, const struct text *file)
{
    if (one_in(&dice, 16))
        wild_bytes(reg, &dice);
    else
        draw_register(reg, &dice, file);
}

static void read_against(const char *what, struct call c,
                         const struct text *reg)
{
    c.which = READS_REGISTERED;
    c.reg = (struct held){reg->data, reg->len};
    ask_rooms(what, &c);
}

/* The file that was lent is read against a register as well. */
static void read_registered(const char *what, const struct call *c,
                            const struct made *made)
{
    static struct text reg;
    any_register(&reg, &made->file);
    read_against(what, *c, &reg);
}

/* A day's start, both questions, and a number given back. */
static void attack_register(void)
{
    static struct text reg;
    any_register(&reg, NULL);
    scene.parts_used = 0;
    for (enum which which = STARTS; which <= GIVES_BACK; which++) {
        struct call c = call_of_register(which, &reg);
        c.date = draw_date(&dice);
        c.given = draw_given(&dice, &reg);
        ask("a register", &c, 0);
    }
}

/* A file of K's numbers, read against a register alone. */
static void attack_numbers(void)
{
    static struct made made;
    generate_numbered(&made, roll(&dice));
    struct call c = call_of_made(READS_REGISTERED, &made);
    scene.parts_used = 0;
    c.file = lend_part(0, made.file.data, made.file.len);
    read_registered("a file of numbers", &c, &made);
}

/* Explained, what is found in it listed, read and, if it says a batch, written;
   read against a register; and lines of it found. */
static void attack_made(const char *what, const struct made *made, bool wild)
{
    struct call c = call_of_made(EXPLAINS, made);
    scene.parts_used = 0;
    c.file = lend_part(0, made->file.data, made->file.len);
    if (wild)
        wild_arguments(&c);
    ask_rooms(what, &c);
    c.which = LISTS;
    ask_rooms(what, &c);
    c.which = READS;
    struct outcome read = ask_rooms(what, &c);
    if (read.number == 0)
        write_what_was_read(c, &read);
    if (c.sheet == K || one_in(&dice, 4)) /* the others do not look at it */
        read_registered(what, &c, made);
    find_lines(what, c, read.words[0]);
}

static void attack_file(void)
{
    static struct made made;
    const char *what = "a file";
    generate(&made, roll(&dice));
    switch (below(&dice, 12)) {
    case 0:
        what = "bytes without sense";
        wild_bytes(&made.file, &dice);
        break;
    case 1:
        what = "a file cut short";
        made.file.len =
            one_in(&dice, 4) ? 0 : below(&dice, made.file.len + 1);
        break;
    case 2:
        what = "a damaged file";
        damage(&made.file, &dice);
        break;
    default:
        break;
    }
    attack_made(what, &made, true);
}

/* A statement, and at times bytes without sense, a file of another kind, or a
   part of one. */
static const char *draw_statement_file(struct text *file)
{
    static struct made made;
    generate_statement(file, roll(&dice));
    switch (below(&dice, 12)) {
    case 0:
        wild_bytes(file, &dice);
        return "bytes without sense";
    case 1:
        file->len = one_in(&dice, 4) ? 0 : below(&dice, file->len + 1);
        return "a statement cut short";
    case 2:
        generate(&made, roll(&dice));
        text_clear(file);
        text_bytes(file, made.file.data, made.file.len);
        return "a batch as a statement";
    default:
        return "a statement";
    }
}

/* Read, and what was read is written, with a wild word at times. */
static void attack_statement_file(void)
{
    static struct text bytes;
    const char *what = draw_statement_file(&bytes);
    struct call c = {.which = READS_STATEMENT};
    scene.parts_used = 0;
    c.file = lend_part(0, bytes.data, bytes.len);
    struct outcome read = ask_rooms(what, &c);
    if (read.number != ABO_ACCEPTED)
        return;
    text_clear(&bytes);
    text_bytes(&bytes, scene.ours.lent, (size_t)read.written);
    if (one_in(&dice, 3))
        wild_statement_word(&bytes, &dice);
    c.which = WRITES_STATEMENT;
    c.file = lend_part(1, bytes.data, bytes.len);
    ask_rooms("what was read of a statement", &c);
}

static void attack_statement_rows(void)
{
    static struct text rows;
    const char *what = "a statement's rows";
    draw_statement(&rows, roll(&dice));
    if (one_in(&dice, 8)) {
        what = "a statement's rows without sense";
        wild_statement_rows(&rows, &dice);
    } else if (one_in(&dice, 2)) {
        what = "a statement's rows with a wild word";
        wild_statement_word(&rows, &dice);
    }
    struct call c = {.which = WRITES_STATEMENT};
    scene.parts_used = 0;
    c.file = lend_part(0, rows.data, rows.len);
    ask_rooms(what, &c);
}

/* Against a register of its day in which nothing is marked. */
static void attack_started(const char *what, const struct made *made)
{
    static struct text reg;
    struct call c = call_of_made(READS_REGISTERED, made);
    scene.parts_used = 0;
    c.file = lend_part(0, made->file.data, made->file.len);
    put_register(&reg, 20180101);
    read_against(what, c, &reg);
}

/* At the limits on counts, and one past them: no generated file is as long. */
static void attack_bulks(void)
{
    static const struct bulk bulks[] = {
        {.files = 1000, .groups = 1, .items = 1},
        {.files = 1001, .groups = 1, .items = 1},
        {.files = 1, .groups = 1, .items = 1000},
        {.files = 1, .groups = 1001, .items = 1},
    };
    struct made made = {0};
    for (unsigned sheet = K; sheet <= LAST_SHEET; sheet++)
        for (unsigned i = 0; i < COUNT_OF(bulks); i++) {
            make_bulk(&made, sheet, &bulks[i]);
            attack_made("a file of many lines", &made, false);
            attack_started("a file of many numbers", &made);
        }
    text_free(&made.file);
}

/* About both ends of the days on which a collection may be due, on todays of
   every number of a month. */
static void attack_collections(void)
{
    enum { STEP = 499 }; /* a prime, and so no whole months or years */
    static struct made made;
    static struct draft draft;
    for (size_t today = 0; today < DAYS; today += STEP)
        for (unsigned which = 0; which < COLLECTION_CASES; which++) {
            unsigned sheet = one_in(&dice, 2) ? C : P;
            collection_file(&made, sheet, today, which);
            attack_made("a collection", &made, false);
            collection_draft(&draft, sheet, today, which);
            attack_draft("a collection's rows", &draft);
        }
}

/* No number may come that the call cannot give, and with enough rounds every
   one that it can give must have come. */
static void report(struct seeds seeds)
{
    static const uint64_t statements = UINT64_C(0xf) << 50 | 0x10001;
    const uint64_t can_come[CALLS] = {
        0x1ffff, 0x310007, 0x10007, 3, statements, statements, 0x10007,
        0xc1ffff, 0x10005, 0x800001, 0x800001, 0x1800001};
    bool tested = are_enough(seeds, ENOUGH);
    report_edges();
    for (unsigned which = 0; which < CALLS; which++)
        for (unsigned number = 0; number < NUMBERS; number++) {
            bool can = can_come[which] >> number & 1;
            bool came = edge_counts[which][number] > 0;
            check(can || !came, "a number came that the call cannot give");
            if (tested)
                check(!can || came, "a number that can come never came");
        }
}

int main(int argc, char **argv)
{
    struct seeds seeds = take_seeds(argc, argv, 80000);
    catch_crashes();
    dice.state = round_seed = seeds.first;
    attack_bulks();
    attack_collections();
    for (uint64_t i = 0; i < seeds.count; i++) {
        round_seed = seeds.first + i;
        dice.state = round_seed;
        if (one_in(&dice, 2))
            attack_file();
        else
            attack_rows();
        if (round_seed % 4 == 0) /* these take fewer rounds, having few ways */
            attack_statement_file();
        else if (round_seed % 4 == 2)
            attack_statement_rows();
        else if (round_seed % 4 == 1)
            attack_register();
        else
            attack_numbers();
    }
    report(seeds);
    return last_line();
}
