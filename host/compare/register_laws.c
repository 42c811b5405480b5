#include "register_laws.h"
#include "../call/call_abo.h"
#include "../call/lend.h"
#include "../call/lines.h"
#include "../call/show.h"
#include "../generate/words.h"

#include <stdio.h>
#include <string.h>

enum { BYTES = ABO_REGISTER_BYTES, ALL = ABO_REGISTER_NUMBERS, DATE_AT = 4 };

static void tell(bool ok, const char *what, uint64_t seed, const char *law,
                 const struct call *c)
{
    if (!count_check(ok))
        return;
    printf("failed: %s: %s, seed %llu\n", what, law, (unsigned long long)seed);
    show_call(c, 0, false);
}

/* ---- reading without a register ---- */

/* The library's own, and its rows where the file is accepted, in this room or
   in more. */
struct plain {
    struct outcome answer;
    const uint8_t *rows;
    size_t count;
};

static struct outcome read_in(const struct call *c, uint8_t *rows, size_t room)
{
    struct call plain = *c;
    plain.which = READS;
    return call_abo(&plain, rows, room);
}

static struct plain read_plain(const struct call *c, size_t room)
{
    static struct text rows;
    struct plain p = {0};
    text_clear(&rows);
    text_repeat(&rows, 0, room);
    p.answer = read_in(c, rows.data, room);
    if (p.answer.number == ABO_NO_ROOM) { /* what it would have with room */
        text_repeat(&rows, 0, (size_t)p.answer.needed);
        read_in(c, rows.data, rows.len);
        p.count = (size_t)p.answer.needed / ABO_ROW_BYTES;
    } else if (p.answer.number == ABO_ACCEPTED) {
        p.count = (size_t)p.answer.written / ABO_ROW_BYTES;
    }
    p.rows = rows.data;
    return p;
}

/* The first three digits of an account file's number. */
static size_t series_of(const uint8_t *rows, size_t row)
{
    return (size_t)(word_of(rows, row, ABO_FILE_NUMBER) / 1000);
}

static bool is_file(const uint8_t *rows, size_t row)
{
    return word_of(rows, row, ABO_FIELD_ROW) == ABO_ROW_FILE;
}

/* ---- the answer, by that ---- */

static bool looks(const struct call *c, const struct outcome *plain)
{
    return c->sheet == ABO_SHEET_K && plain->number != ABO_BAD_TODAY;
}

static struct outcome refusal(uint64_t number, uint64_t line, uint64_t byte)
{
    struct outcome o = {.number = number, .words = {line, byte}};
    memset(o.name, ' ', sizeof o.name);
    return o;
}

static uint64_t digits_at(const uint8_t *bytes, size_t count)
{
    uint64_t value = 0;
    for (size_t i = 0; i < count; i++)
        value = value * 10 + (uint64_t)(bytes[i] - '0');
    return value;
}

/* The date of a header that was read past its date. */
static uint64_t date_in(const uint8_t *file)
{
    uint64_t date = digits_at(file + DATE_AT, 6);
    return 20000000 + date % 100 * 10000 + date / 100 % 100 * 100 +
           date / 10000;
}

/* Of the numbers that stand before a place, which reading has passed, the first
   one that is used; or reading's own answer. */
static struct outcome first_used(const struct call *c,
                                 const struct outcome *plain, size_t before)
{
    static struct lines lines;
    split_lines(&lines, c->file.bytes, c->file.len);
    for (size_t i = 1; i < lines.count; i++) {
        size_t at = (size_t)lines.list[i].at, number = at + strlen("1 1501 ");
        if (number < before && memcmp(c->file.bytes + at, "1 ", 2) == 0 &&
            has_mark(c->reg.bytes, digits_at(c->file.bytes + number, 3)))
            return refusal(ABO_NUMBER_USED, i + 1, number);
    }
    return *plain;
}

/* A fault before the header's date, or of the date, stays. */
static struct outcome due_answer(const struct call *c,
                                 const struct outcome *plain)
{
    bool faulty =
        plain->number != ABO_ACCEPTED && plain->number != ABO_NO_ROOM;
    if (!looks(c, plain) || (faulty && plain->words[1] <= DATE_AT))
        return *plain;
    if (ill_of(c->reg.bytes, c->reg.len) != NOT_ILL ||
        number_at(c->reg.bytes, 8) != date_in(c->file.bytes))
        return refusal(ABO_BAD_REGISTER, 1, DATE_AT);
    return first_used(c, plain, faulty ? (size_t)plain->words[1] : c->file.len);
}

/* ---- the register, by that ---- */

static size_t marks_in(const uint8_t *reg)
{
    size_t count = 0;
    for (size_t n = 0; n < MARK_ROOM; n++)
        count += has_mark(reg, n);
    return count;
}

/* The old marks and those of the rows, each of them new. */
static bool marks_added(const uint8_t *before, const uint8_t *after,
                        const struct plain *p)
{
    uint8_t due[BYTES];
    size_t files = 0;
    memcpy(due, before, BYTES);
    for (size_t row = 0; row < p->count; row++)
        if (is_file(p->rows, row)) {
            set_mark(due, series_of(p->rows, row), true);
            files++;
        }
    return memcmp(after, due, BYTES) == 0 &&
           marks_in(after) == marks_in(before) + files;
}

void check_reading(const char *what, uint64_t seed, const struct call *c,
                   size_t room, const struct left *left)
{
    struct plain plain = read_plain(c, room);
    struct outcome due = due_answer(c, &plain.answer);
    bool accepted = left->answer.number == ABO_ACCEPTED;
    tell(same_outcome(&left->answer, &due), what, seed,
         "not what reading says and the register leaves of it", c);
    tell(!accepted || same_bytes(left->rows, plain.rows,
                                 (size_t)left->answer.written),
         what, seed, "other rows than reading's", c);
    if (accepted && c->sheet == ABO_SHEET_K)
        tell(marks_added(c->reg.bytes, left->reg, &plain), what, seed,
             "other numbers are marked than the file's", c);
    else
        tell(same_bytes(left->reg, c->reg.bytes, c->reg.len), what, seed,
             "the register was changed", c);
}

/* ---- the other calls ---- */

static size_t lowest_in(const uint8_t *reg)
{
    size_t n = 0;
    while (n < ALL && has_mark(reg, n))
        n++;
    return n;
}

static bool is_taken(const struct call *c)
{
    return c->given < ALL && has_mark(c->reg.bytes, (size_t)c->given);
}

/* What is asked of a register that is laid out. */
static struct outcome due_of_laid(const struct call *c)
{
    if (c->which == ASKS_LOWEST)
        return (struct outcome){.words = {lowest_in(c->reg.bytes)}};
    if (c->which == ASKS_FREE)
        return (struct outcome){.words = {ALL - marks_in(c->reg.bytes)}};
    return (struct outcome){.number = is_taken(c) ? 0 : ABO_NOT_TAKEN};
}

/* The day is looked up as that of a register would be. */
static struct outcome due_of_start(const struct call *c)
{
    static struct text any;
    put_register(&any, c->date);
    if (ill_of(any.data, any.len) != NOT_ILL)
        return (struct outcome){.number = ABO_BAD_TODAY};
    if (c->reg.len < BYTES)
        return (struct outcome){.number = ABO_NO_ROOM, .words = {BYTES}};
    return (struct outcome){0};
}

/* The register behind the call. */
static void due_register(struct text *due, const struct call *c, bool accepted)
{
    text_clear(due);
    if (accepted && c->which == STARTS) {
        put_register(due, c->date);
        text_bytes(due, c->reg.bytes + BYTES, c->reg.len - BYTES);
        return;
    }
    text_bytes(due, c->reg.bytes, c->reg.len);
    if (accepted && c->which == GIVES_BACK)
        set_mark(due->data, (size_t)c->given, false);
}

void check_register(const char *what, uint64_t seed, const struct call *c,
                    const struct left *left)
{
    static struct text due;
    bool ill = ill_of(c->reg.bytes, c->reg.len) != NOT_ILL;
    struct outcome o = c->which == STARTS ? due_of_start(c)
                       : ill ? (struct outcome){.number = ABO_BAD_REGISTER}
                             : due_of_laid(c);
    tell(same_outcome(&left->answer, &o), what, seed,
         "another answer than a look at each number gives", c);
    due_register(&due, c, o.number == ABO_ACCEPTED);
    tell(same_bytes(left->reg, due.data, c->reg.len), what, seed,
         "the register is not left as it must be", c);
}

/* ---- the same file again ---- */

/* Gives back all numbers of the rows; false if one is not taken. */
static bool give_all_back(const uint8_t *rows, size_t count,
                          struct held reg)
{
    for (size_t row = 0; row < count; row++)
        if (is_file(rows, row) &&
            abo_register_give_back(reg.bytes, reg.len, series_of(rows, row))
                    .number != ABO_ACCEPTED)
            return false;
    return true;
}

void check_again(const char *what, uint64_t seed, const struct call *c,
                 size_t room, const struct left *left)
{
    static struct text rows, after, again;
    struct call second = *c;
    size_t count = (size_t)left->answer.words[2];
    struct abo_found line = abo_line(c->file.bytes, c->file.len, 2);
    struct outcome used = refusal(ABO_NUMBER_USED, 2,
                                  line.at + strlen("1 1501 "));
    text_clear(&after);
    text_bytes(&after, left->reg, c->reg.len);
    text_clear(&again);
    text_bytes(&again, left->reg, c->reg.len);
    text_clear(&rows);
    text_bytes(&rows, left->rows, room);
    second.reg = (struct held){again.data, again.len};
    struct outcome o = call_abo(&second, rows.data, room);
    tell(same_outcome(&o, &used), what, seed,
         "a file that was accepted is not refused at its first number", c);
    tell(give_all_back(rows.data, count, second.reg) &&
             memcmp(again.data, c->reg.bytes, again.len) == 0,
         what, seed, "its numbers cannot be given back", c);
    o = call_abo(&second, rows.data, room);
    tell(same_outcome(&o, &left->answer) &&
             memcmp(again.data, after.data, again.len) == 0,
         what, seed, "it is not accepted again", c);
}
