#include "spell_batch.h"
#include "days.h"
#include "digits.h"

/* How many bytes. */

static uint64_t account_bytes(struct account a)
{
    return (a.prefix != 0 ? digits_of(a.prefix) + 1 : 0) + digits_of(a.base);
}

/* The space in front is counted. */
static uint64_t text_bytes(const uint8_t *row)
{
    uint64_t parts = parts_used(row), name = row_word(row, ITEM_NAME + 1);
    uint64_t bytes = 0;
    if (parts > 0)
        bytes = 4 + parts - 1; /* ` AV:` and the bars */
    for (size_t part = 0; part < parts; part++)
        bytes += row_word(row, part_word(part) + 1);
    return name > 0 ? bytes + 4 + name : bytes;
}

static uint64_t tail_bytes(const struct batch *b, const uint8_t *row)
{
    uint64_t symbol = row_word(row, ITEM_SPECIFIC), text;
    if (b->sheet->tail == PEER_TAIL_PART)
        return 2 + (symbol != 0 ? digits_of(symbol) : 0) +
               row_word(row, ITEM_PARTS + 1);
    text = text_bytes(row);
    return symbol != 0 || text != 0 ? 1 + digits_of(symbol) + text : 0;
}

static uint64_t item_bytes(const struct batch *b, const uint8_t *row)
{
    struct account payer = row_account(row, ITEM_PAYER);
    uint64_t bytes = account_is_none(payer) ? 0 : account_bytes(payer) + 1;
    bytes += account_bytes(row_account(row, ITEM_PAYEE)) + 1;
    bytes += digits_of(row_word(row, ITEM_AMOUNT)) + 1;
    bytes += digits_of(row_word(row, ITEM_VARIABLE)) + 1;
    bytes += row_word(row, ITEM_PRIORITY) == USUAL_PRIORITY ? 8 : 10;
    return bytes + tail_bytes(b, row) + 2;
}

uint64_t peer_line_bytes(const struct batch *b, const uint8_t *row)
{
    struct account payer;
    switch (row_word(row, 0)) {
    case ROW_FILE:
        return 20;
    case ROW_GROUP:
        payer = row_account(row, GROUP_PAYER);
        if (!account_is_none(payer))
            return 2 + account_bytes(payer) + 1 + 7 + 2;
        return b->sheet->by_spaces ? 2 + 7 + 2 : 3 + 7 + 2;
    default:
        return item_bytes(b, row);
    }
}

/* And which. */

static uint8_t *put_bytes(uint8_t *out, const void *bytes, size_t len)
{
    memcpy(out, bytes, len);
    return out + len;
}

static uint8_t *put_text(uint8_t *out, struct bytes text)
{
    return text.len > 0 ? put_bytes(out, text.data, text.len) : out;
}

static uint8_t *put_byte(uint8_t *out, char byte)
{
    *out = (uint8_t)byte;
    return out + 1;
}

static uint8_t *put_account(uint8_t *out, struct account a)
{
    if (a.prefix != 0)
        out = put_byte(put_number(out, a.prefix), '-');
    return put_number(out, a.base);
}

static uint8_t *put_first(const struct batch *b, uint8_t *out)
{
    out = put_bytes(out, "UHL1", 4);
    if (b->sheet->header) {
        out = put_padded(out, short_of_date(b->date), 6);
        out = put_bytes(out, b->name.data, NAME_BYTES);
        out = put_padded(out, b->client, 10);
        out = put_padded(out, b->from, 3);
        out = put_padded(out, b->to, 3);
        out = put_padded(out, 0, 12);
    }
    return put_bytes(out, "\r\n", 2);
}

static uint8_t *put_file(const struct batch *b, const uint8_t *row,
                         uint8_t *out)
{
    out = put_bytes(out, "1 ", 2);
    out = put_byte(put_padded(out, row_word(row, FILE_KIND), 4), ' ');
    out = put_byte(put_padded(out, row_word(row, FILE_NUMBER), 6), ' ');
    return put_bytes(put_padded(out, b->sheet->bank, 4), "\r\n", 2);
}

/* The total stands before the items it adds up, so they are looked at ahead. */
static uint64_t group_sum(const uint8_t *row, const uint8_t *end)
{
    uint64_t sum = 0;
    for (row += ROW_BYTES; row != end && row_word(row, 0) == ROW_ITEM;
         row += ROW_BYTES)
        sum += row_word(row, ITEM_AMOUNT);
    return sum;
}

static uint8_t *put_group(const struct batch *b, const uint8_t *row,
                          uint64_t total, uint8_t *out)
{
    struct account payer = row_account(row, GROUP_PAYER);
    out = put_bytes(out, "2 ", 2);
    if (!account_is_none(payer))
        out = put_byte(put_account(out, payer), ' ');
    else if (!b->sheet->by_spaces)
        out = put_byte(out, ' ');
    out = put_byte(put_number(out, total), ' ');
    out = put_padded(out, short_of_date(row_word(row, GROUP_DATE)), 6);
    return put_bytes(out, "\r\n", 2);
}

/* The text of K, C, E and P with the space in front of it. */
static uint8_t *put_message(const struct batch *b, const uint8_t *row,
                            uint8_t *out)
{
    size_t parts = parts_used(row);
    struct bytes name = row_text(b, row, ITEM_NAME);
    for (size_t part = 0; part < parts; part++) {
        out = part == 0 ? put_bytes(out, " AV:", 4) : put_byte(out, '|');
        out = put_text(out, row_text(b, row, part_word(part)));
    }
    if (name.len > 0)
        out = put_text(put_bytes(out, " NP:", 4), name);
    return out;
}

static uint8_t *put_tail(const struct batch *b, const uint8_t *row,
                         uint8_t *out)
{
    uint64_t symbol = row_word(row, ITEM_SPECIFIC);
    if (b->sheet->tail == PEER_TAIL_PART) {
        out = put_byte(out, ' ');
        if (symbol != 0)
            out = put_number(out, symbol);
        out = put_byte(out, ' ');
        return put_text(out, row_text(b, row, ITEM_PARTS));
    }
    if (tail_bytes(b, row) == 0)
        return out;
    return put_message(b, row, put_number(put_byte(out, ' '), symbol));
}

static uint8_t *put_item(const struct batch *b, const uint8_t *row,
                         uint8_t *out)
{
    struct account payer = row_account(row, ITEM_PAYER);
    uint64_t priority = row_word(row, ITEM_PRIORITY);
    if (!account_is_none(payer))
        out = put_byte(put_account(out, payer), ' ');
    out = put_byte(put_account(out, row_account(row, ITEM_PAYEE)), ' ');
    out = put_byte(put_number(out, row_word(row, ITEM_AMOUNT)), ' ');
    out = put_byte(put_number(out, row_word(row, ITEM_VARIABLE)), ' ');
    if (priority != USUAL_PRIORITY)
        out = put_padded(out, priority, 2);
    out = put_padded(out, row_word(row, ITEM_BANK), 4);
    out = put_padded(out, row_word(row, ITEM_CONSTANT), 4);
    return put_bytes(put_tail(b, row, out), "\r\n", 2);
}

/* What is open is closed before the next head and at the end: a group behind
   its items, an account file behind its groups. */
void peer_spell_batch(const struct batch *b, uint8_t *out)
{
    const uint8_t *row = b->rows.data, *end = row + b->rows.len;
    uint64_t before = 0;
    out = put_first(b, out);
    for (; row != end; row += ROW_BYTES) {
        uint64_t kind = row_word(row, 0);
        if (before == ROW_ITEM && kind != ROW_ITEM)
            out = put_bytes(out, "3 +\r\n", 5);
        if (before == ROW_ITEM && kind == ROW_FILE)
            out = put_bytes(out, "5 +\r\n", 5);
        if (kind == ROW_FILE)
            out = put_file(b, row, out);
        else if (kind == ROW_GROUP)
            out = put_group(b, row, group_sum(row, end), out);
        else
            out = put_item(b, row, out);
        before = kind;
    }
    put_bytes(out, "3 +\r\n5 +\r\n", 10);
}
