/* Nothing is judged here: every line is known to fit its sheet, so a field is
   read by going to its end. */
#include "fill.h"
#include "account.h"
#include "days.h"
#include "lines.h"
#include "split.h"

/* Every word is stored: those that a row does not use stay zero, and so does an
   item's reference, which no file carries. */
static void start_row(uint8_t *row, uint64_t kind)
{
    memset(row, 0, ROW_BYTES);
    store_word(row, kind);
}

static void put_word(uint8_t *row, size_t word, uint64_t value)
{
    store_word(row + 8 * word, value);
}

static void put_account(uint8_t *row, size_t word, struct account a)
{
    put_word(row, word, a.prefix);
    put_word(row, word + 1, a.base);
}

static uint64_t take_digits(struct bytes f, size_t *at)
{
    struct run run = digit_run(f, *at);
    *at = run.end;
    return run.value;
}

/* A comma stands before the last two digits and changes nothing else. */
static uint64_t take_amount(struct bytes f, size_t *at)
{
    uint64_t amount = take_digits(f, at);
    if (f.data[*at] == ',') {
        *at += 1;
        amount = amount * 100 + take_digits(f, at);
    }
    return amount;
}

static void fill_file(struct bytes f, size_t at, uint8_t *row)
{
    start_row(row, 1);
    at += 2;
    put_word(row, 1, take_digits(f, &at));
    at++;
    put_word(row, 2, take_digits(f, &at));
}

/* Three fields begin with the payer's, which may be empty or zeros; of two
   fields the second is the date.  Gives back whether the group is single. */
static bool fill_group(struct bytes f, size_t at, uint8_t *row)
{
    size_t first = at + 2, second = field_end(f, first) + 1, end;
    size_t last = second;
    struct account payer = {0, 0};
    if (!line_ends(f, field_end(f, second))) {
        last = field_end(f, second) + 1;
        payer = take_account(f, first, &end);
    }
    struct run date = digit_run(f, last);
    start_row(row, 2);
    put_word(row, 1, date.end - last == 8 ? date.value
                                          : date_of_short(date.value));
    put_account(row, 2, payer);
    return account_is_none(payer);
}

/* The symbol and texts behind the bank field; gives back the line's end. */
static size_t fill_tail(struct bytes f, const struct peer_sheet *sheet,
                        size_t at, uint8_t *row)
{
    struct split split;
    if (line_ends(f, at))
        return at;
    at++;
    struct run symbol = digit_run(f, at);
    /* Only on C may digits here begin a text instead. */
    if (symbol.end - at <= 10 && field_ends(f, symbol.end)) {
        put_word(row, 8, symbol.value);
        if (line_ends(f, symbol.end))
            return symbol.end;
        at = symbol.end + 1;
    }
    size_t end = text_end(f, at);
    peer_split(f, at, end, sheet, &split);
    for (size_t i = 0; i <= MOST_PARTS; i++) {
        put_word(row, 11 + 2 * i, split.place[i]);
        put_word(row, 12 + 2 * i, split.length[i]);
    }
    return end;
}

static size_t fill_item(struct bytes f, const struct peer_sheet *sheet,
                        size_t at, bool single, uint8_t *row)
{
    start_row(row, 3);
    if (single) {
        put_account(row, 1, take_account(f, at, &at));
        at++;
    }
    put_account(row, 3, take_account(f, at, &at));
    at++;
    put_word(row, 6, take_amount(f, &at));
    at++;
    put_word(row, 7, take_digits(f, &at));
    at++;
    uint64_t bank = take_digits(f, &at), priority = bank / 100000000;
    put_word(row, 5, bank / 10000 % 10000);
    put_word(row, 9, bank % 10000);
    put_word(row, 10, priority < 3 ? USUAL_PRIORITY : priority);
    return fill_tail(f, sheet, at, row);
}

void peer_fill(struct bytes file, const struct peer_sheet *sheet,
               uint8_t *rows)
{
    bool single = false;
    size_t at = 0;
    for (;; at = next_line(file, line_end(file, at))) {
        switch (line_kind(file, at)) {
        case LINE_NONE:
            return;
        case LINE_FILE:
            fill_file(file, at, rows);
            break;
        case LINE_GROUP:
            single = fill_group(file, at, rows);
            break;
        case LINE_ITEM:
            at = fill_item(file, sheet, at, single, rows);
            break;
        default:
            continue;
        }
        rows += ROW_BYTES;
    }
}
