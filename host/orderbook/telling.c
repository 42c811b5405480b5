/*
 * Sentences about a ledger, in its own words. The library alone decides; what
 * is looked at here is only which of its reasons it was.
 */
#include "telling.h"

#include <inttypes.h>
#include <stdio.h>
#include <stdlib.h>
#include <string.h>

#include <abo_say.h>
#include "../common/letters.h"
#include "../common/names.h"
#include "../common/place.h"
#include "../common/sheet_and_day.h"
#include "../common/sums.h"
#include "words.h"

enum { WIDEST_VALUE = 60 }; /* columns of a value in a sentence */

/* ---- Places ---- */

static uint64_t line_number(const struct ledger *l, struct span at)
{
    uint64_t number;
    ledger_line(l, at.at, &number);
    return number;
}

/* Tabs are blanks, and shown as such but for one that is meant. */
static void show_line(const struct ledger *l, struct span line,
                      struct span at)
{
    size_t place = at.at - line.at < line.len ? at.at - line.at : line.len;
    size_t width = at.len < line.len - place ? at.len : line.len - place;
    uint8_t *copy = malloc(line.len > 0 ? line.len : 1);
    if (copy == NULL)
        return;
    memcpy(copy, l->text.bytes + line.at, line.len);
    for (size_t i = 0; i < line.len; i++)
        if (copy[i] == '\t' && (i < place || i >= place + width))
            copy[i] = ' ';
    show_place(stderr, copy, line.len, place, width);
    free(copy);
}

/* A line, its number, and the place in it that is meant. */
struct shown {
    struct span line, at;
    uint64_t number;
};

static struct shown shown_at(const struct ledger *l, struct span at)
{
    struct shown s = {{0, 0}, at, 0};
    s.line = ledger_line(l, at.at, &s.number);
    return s;
}

static void show_in_ledger(const struct order *o, const struct ledger *l,
                           struct shown s)
{
    if (s.line.len == 0) /* an empty ledger has nothing to show */
        return;
    if (strcmp(o->name, "-") == 0)
        fputs("standard input", stderr);
    else
        put_name(stderr, o->name);
    fprintf(stderr, ", line %" PRIu64 ":\n", s.number);
    show_line(l, s.line, s.at);
}

void tell_misread(const struct order *o, const struct ledger *l)
{
    fprintf(stderr, "orderbook: %s\n", l->fault);
    show_in_ledger(o, l, shown_at(l, l->fault_span));
}

/* ---- Refusals of a row ---- */

static uint64_t kind_of(const struct ledger *l, uint64_t row)
{
    return row > 0 && row <= l->count ? l->rows[row - 1].word[ABO_FIELD_ROW]
                                      : 0;
}

static void put_sheet(const struct order *o)
{
    const struct abo_sheet_words *sheet = abo_say_sheet(o->sheet);
    if (sheet != NULL)
        fprintf(stderr, "sheet %c (%s %s)", sheet->letter, sheet->code,
                sheet->bank);
}

/* The line's first word: `wage`, `due`. */
static void put_line_word(const struct ledger *l, uint64_t row)
{
    struct span word = ledger_span(l, row, ABO_FIELD_ROW);
    show_1250(stderr, l->text.bytes + word.at, word.len);
}

/* One item or account file more than a file may have. */
static void tell_too_many(const struct order *o, const struct ledger *l,
                          struct abo_written w)
{
    uint64_t kind = kind_of(l, w.row);
    const char *most = abo_say_carried(o->sheet, kind, ABO_FIELD_ROW);
    fputs("this ", stderr);
    put_line_word(l, w.row);
    if (w.number == ABO_NOT_CARRIED) {
        fputs(" is one too many on ", stderr);
        put_sheet(o);
        fprintf(stderr, ", which takes %s", most != NULL ? most : "fewer");
    } else if (kind == ABO_ROW_FILE) {
        fputs(" line is one too many: 1000 account files are the most", stderr);
    } else {
        fputs(" is one too many: an account file has 99999 items at most",
              stderr);
    }
}

/* Says what is missing above or under a row, and gives back the row that is
 * to be shown; 0 if nothing is missing. */
static uint64_t tell_missing(const struct ledger *l, uint64_t row)
{
    uint64_t above = kind_of(l, row - 1), here = kind_of(l, row);
    uint64_t line = line_number(l, ledger_span(l, row - 1, ABO_FIELD_ROW));
    if (above == ABO_ROW_GROUP && here != ABO_ROW_ITEM) {
        fprintf(stderr, "the due of line %" PRIu64 " has no wage or "
                        "invoice under it", line);
        return row - 1;
    }
    if (above == ABO_ROW_FILE && here != ABO_ROW_GROUP &&
        here != ABO_ROW_ITEM) {
        fprintf(stderr, "the file of line %" PRIu64 " has no due under "
                        "it", line);
        return row - 1;
    }
    if (above == 0 && here == 0)
        fputs("the ledger pays nothing: a file line is wanted, under it a due "
              "line, and under that a wage or an invoice", stderr);
    else if (above == 0 && here == ABO_ROW_ITEM)
        fputs("a file line and a due line are wanted before this line",
              stderr);
    else if (above == 0 && here == ABO_ROW_GROUP)
        fputs("a file line is wanted before this line", stderr);
    else if (above == ABO_ROW_FILE && here == ABO_ROW_ITEM)
        fputs("a due line is wanted before this line", stderr);
    else
        return 0;
    return row;
}

/* Gives back the place that is to be shown. */
static struct span tell_row(const struct order *o, const struct ledger *l,
                            struct abo_written w)
{
    uint64_t shown = w.number == ABO_NOT_A_BATCH ? tell_missing(l, w.row) : 0;
    if (shown == 0) {
        tell_too_many(o, l, w);
        shown = w.row;
    }
    return ledger_span(l, shown, ABO_FIELD_ROW);
}

/* ---- Refusals of a field ---- */

static bool is_text(uint64_t kind, uint64_t field)
{
    return (kind == 0 && field == ABO_HEADER_NAME) ||
           (kind == ABO_ROW_ITEM && field >= ABO_ITEM_PART_1 &&
            field <= ABO_ITEM_NAME);
}

/* No word of the ledger, but the number of the item's line. */
static bool is_reference(uint64_t kind, uint64_t field)
{
    return kind == ABO_ROW_ITEM && field == ABO_ITEM_REFERENCE;
}

/* A ledger's group always has its payer, which must be an account as any
 * other; one of zeros is missed at the first item. */
static bool is_payer(uint64_t kind, uint64_t field)
{
    return (kind == ABO_ROW_GROUP && field == ABO_GROUP_PAYER) ||
           (kind == ABO_ROW_ITEM && field == ABO_ITEM_PAYER);
}

static const char *allowed_in(const struct order *o, uint64_t number,
                              uint64_t kind, uint64_t field)
{
    const char *allowed = number == ABO_NOT_CARRIED
                              ? abo_say_carried(o->sheet, kind, field)
                          : is_payer(kind, field)
                              ? abo_say_allowed(ABO_ROW_ITEM, ABO_ITEM_PAYEE)
                              : abo_say_allowed(kind, field);
    return allowed != NULL ? allowed : abo_say_number(number);
}

static void put_value(const struct ledger *l, struct span value, bool text)
{
    bool cut = value.len > WIDEST_VALUE;
    const char *mark = text ? "\"" : "";
    fputs(mark, stderr);
    show_1250(stderr, l->text.bytes + value.at,
              cut ? WIDEST_VALUE : value.len);
    fprintf(stderr, "%s%s", cut ? ".." : "", mark);
    if (text)
        fprintf(stderr, " of %zu letter%s", value.len,
                value.len == 1 ? "" : "s");
}

static void put_field(const struct ledger *l, struct abo_written w)
{
    uint64_t kind = kind_of(l, w.row);
    if (is_reference(kind, w.field))
        fprintf(stderr, "%" PRIu64, l->rows[w.row - 1].item.reference);
    else
        put_value(l, ledger_span(l, w.row, w.field), is_text(kind, w.field));
}

/* An amount that is small enough by itself is too much for its group. */
static void tell_sum(const struct ledger *l, uint64_t row)
{
    struct sum sum = {0, 0};
    char text[SUM_ROOM];
    if (l->rows[row - 1].item.amount == 0 ||
        l->rows[row - 1].item.amount > UINT64_C(99999999999999))
        return;
    for (uint64_t i = row; kind_of(l, i) == ABO_ROW_ITEM; i--)
        add_haler(&sum, l->rows[i - 1].item.amount);
    spell_sum(text, sum);
    fprintf(stderr, "; with it the group pays %s", text);
}

/* Which of K's two rules it was: the interval, or an earlier number. */
static void tell_series(const struct ledger *l, uint64_t row)
{
    uint64_t first = l->rows[row - 1].file.number / 1000;
    for (uint64_t i = 1; i < row; i++) {
        if (kind_of(l, i) != ABO_ROW_FILE ||
            l->rows[i - 1].file.number / 1000 != first)
            continue;
        struct span before = ledger_span(l, i, ABO_FILE_NUMBER);
        fprintf(stderr, "; line %" PRIu64 " has %03" PRIu64 " already",
                line_number(l, before), first);
        return;
    }
    fprintf(stderr, "; the interval is %03" PRIu64 " to %03" PRIu64,
            l->header.from, l->header.to);
}

/* A bank is refused for the day of its group, which stands in another line. */
static void tell_group_day(const struct order *o, const struct ledger *l,
                           uint64_t row)
{
    while (kind_of(l, row) == ABO_ROW_ITEM)
        row--;
    fprintf(stderr, "; by line %" PRIu64 " the group is due ",
            line_number(l, ledger_span(l, row, ABO_GROUP_DUE)));
    put_day(stderr, l->rows[row - 1].group.due);
    fputs(", and today is ", stderr);
    put_day(stderr, o->today);
}

/* Which byte of a text it was, and what the caret then stands under. */
static struct span tell_byte(const struct ledger *l, struct span text,
                             bool part)
{
    for (size_t i = text.at; i < text.at + text.len; i++) {
        uint8_t byte = l->text.bytes[i];
        if (byte == '|' && part)
            fputs("; a message has four parts at most", stderr);
        else if (byte == '\t')
            fputs("; here stands a tab", stderr);
        else if (byte < 32 || byte == 127)
            fprintf(stderr, "; here stands the byte 0x%02x", byte);
        else
            continue;
        return (struct span){i, 1};
    }
    return text;
}

/* What the number and the field do not say. Gives back the place meant. */
static struct span tell_more(const struct order *o, const struct ledger *l,
                             struct abo_written w)
{
    uint64_t kind = kind_of(l, w.row);
    struct span value = ledger_span(l, w.row, w.field);
    bool carried = w.number == ABO_NOT_CARRIED;
    if (is_text(kind, w.field) && !carried)
        return tell_byte(l, value, w.row > 0 && w.field != ABO_ITEM_NAME);
    if (kind == ABO_ROW_ITEM && w.field == ABO_ITEM_AMOUNT && !carried)
        tell_sum(l, w.row);
    if (kind == ABO_ROW_FILE && w.field == ABO_FILE_NUMBER && carried)
        tell_series(l, w.row);
    if (kind == ABO_ROW_GROUP && w.field == ABO_GROUP_DUE && carried) {
        fputs("; today is ", stderr);
        put_day(stderr, o->today);
    }
    if (kind == ABO_ROW_ITEM && w.field == ABO_ITEM_BANK && carried)
        tell_group_day(o, l, w.row);
    if (is_reference(kind, w.field))
        fputs("; it is the number of the line", stderr);
    if (w.row == 0 && w.field == ABO_HEADER_TO && carried)
        fprintf(stderr, ", which is %03" PRIu64, l->header.from);
    return value;
}

static struct span tell_field(const struct order *o, const struct ledger *l,
                              struct abo_written w)
{
    uint64_t kind = kind_of(l, w.row);
    const char *noun = abo_say_field(kind, w.field);
    fprintf(stderr, "%s ", noun != NULL ? noun : "a field");
    put_field(l, w);
    fputs(" is not allowed", stderr);
    if (w.number == ABO_NOT_CARRIED) {
        fputs(" on ", stderr);
        put_sheet(o);
    }
    fprintf(stderr, ": it must be %s", allowed_in(o, w.number, kind, w.field));
    return tell_more(o, l, w);
}

/* ---- The whole sentence, and the line ---- */

/* The line of a refused row. An item's is known by its reference. The account
 * that an item is paid from stands in another line, and other rows have no
 * reference: their lines are counted up to the place that is meant. */
static struct shown shown_of(const struct ledger *l, struct abo_written w,
                             struct span at)
{
    uint64_t kind = kind_of(l, w.row);
    if (kind != ABO_ROW_ITEM || is_payer(kind, w.field))
        return shown_at(l, at);
    uint64_t number = l->rows[w.row - 1].item.reference;
    struct abo_found line = abo_line(l->text.bytes, l->text.len, number);
    return (struct shown){{(size_t)line.at, (size_t)line.len}, at, number};
}

void tell_unwritten(const struct order *o, const struct ledger *l,
                    struct abo_written w)
{
    fputs("orderbook: ", stderr);
    if (w.number != ABO_NOT_A_BATCH && w.number != ABO_NOT_CARRIED) {
        fprintf(stderr, "%s (%" PRIu64 ").\n", abo_say_number(w.number),
                w.number);
        return;
    }
    struct span at = w.row > 0 && w.field == ABO_FIELD_ROW
                         ? tell_row(o, l, w)
                         : tell_field(o, l, w);
    fprintf(stderr, " (%" PRIu64 ", row %" PRIu64 ", field %" PRIu64 ").\n",
            w.number, w.row, w.field);
    show_in_ledger(o, l, shown_of(l, w, at));
}

void tell_no_number(const struct order *o, const struct ledger *l,
                    uint64_t row, const char *reg)
{
    fputs("orderbook: no number is left for this account file: ", stderr);
    put_name(stderr, reg);
    fprintf(stderr, " has no free one of %03" PRIu64 " to %03" PRIu64 ", the "
                    "ledger's interval, on ", l->header.from, l->header.to);
    put_day(stderr, o->today);
    fputs(".\n", stderr);
    show_in_ledger(o, l, shown_at(l, ledger_span(l, row, ABO_FILE_NUMBER)));
}
