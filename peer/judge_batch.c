/* One pass: a 20 ends it, while the first 21 waits for the rows behind it. */
#include "judge_batch.h"
#include "days.h"
#include "digits.h"
#include "spell_batch.h"

/* Which kinds of rows may come next, as bits. */
enum {
    AT_START = 1 << ROW_FILE,
    AFTER_FILE = 1 << ROW_GROUP,
    AFTER_GROUP = 1 << ROW_ITEM,
    AFTER_ITEM = 1 << ROW_FILE | 1 << ROW_GROUP | 1 << ROW_ITEM
};

struct walk {
    const struct batch *b;
    struct finding first_21; /* number 0 while there is none */
    uint64_t bytes;
    unsigned due;
    uint64_t files, items, file_items;
    bool collects;           /* days are judged for each item */
    bool single;
    uint64_t day;            /* of the group in hand, as a day number */
    uint64_t sum;            /* of the group in hand */
    uint64_t met[1000 / 64 + 1];
};

static void note_21(struct walk *w, uint64_t row, uint64_t field)
{
    if (w->first_21.number == 0)
        w->first_21 = (struct finding){21, row, field, 0};
}

/* Place and length are held against the lent bytes without being added, as
   their sum could wrap. */
static bool text_is_right(struct bytes texts, uint64_t place, uint64_t length,
                          bool bars)
{
    if (length > TEXT_BYTES || place > texts.len || length > texts.len - place)
        return false;
    if (length == 0)
        return true;
    struct bytes text = {texts.data + (size_t)place, (size_t)length};
    return text_end(text, 0) == text.len &&
           (bars || memchr(text.data, '|', text.len) == NULL);
}

/* The fault functions give the field refused, or 0. */

static uint64_t header_fault(const struct batch *b)
{
    if (!day_is_real(b->date))
        return HEADER_DATE;
    if (b->name.len != NAME_BYTES || text_end(b->name, 0) != NAME_BYTES)
        return HEADER_NAME;
    if (b->client > SYMBOL_MOST)
        return HEADER_CLIENT;
    if (b->from > 999)
        return HEADER_FROM;
    return b->to > 999 ? HEADER_TO : 0;
}

static uint64_t file_fault(const uint8_t *row)
{
    uint64_t kind = row_word(row, FILE_KIND);
    if (kind < FIRST_KIND || kind > LAST_KIND)
        return FILE_KIND;
    return row_word(row, FILE_NUMBER) > 999999 ? FILE_NUMBER : 0;
}

static uint64_t group_fault(const uint8_t *row)
{
    struct account payer = row_account(row, GROUP_PAYER);
    if (!day_is_real(row_word(row, GROUP_DATE)))
        return GROUP_DATE;
    return account_is_none(payer) || account_is_valid(payer) ? 0 : GROUP_PAYER;
}

static uint64_t item_text_fault(const struct batch *b, const uint8_t *row)
{
    for (size_t word = ITEM_PARTS; word <= ITEM_NAME; word += 2)
        if (!text_is_right(b->texts, row_word(row, word),
                           row_word(row, word + 1), word == ITEM_NAME))
            return word;
    return 0;
}

/* No file carries the reference, so its range is all that is asked. */
static uint64_t reference_fault(const uint8_t *row)
{
    return row_word(row, ITEM_REFERENCE) > REFERENCE_MOST ? ITEM_REFERENCE : 0;
}

static uint64_t item_fault(const struct walk *w, const uint8_t *row)
{
    struct account payer = row_account(row, ITEM_PAYER);
    uint64_t amount = row_word(row, ITEM_AMOUNT);
    if (w->single ? !account_is_valid(payer) : !account_is_none(payer))
        return ITEM_PAYER;
    if (!account_is_valid(row_account(row, ITEM_PAYEE)))
        return ITEM_PAYEE;
    if (row_word(row, ITEM_BANK) < 1 || row_word(row, ITEM_BANK) > 9999)
        return ITEM_BANK;
    if (amount < 1 || amount > AMOUNT_MOST || amount > AMOUNT_MOST - w->sum)
        return ITEM_AMOUNT;
    if (row_word(row, ITEM_VARIABLE) > SYMBOL_MOST)
        return ITEM_VARIABLE;
    if (row_word(row, ITEM_SPECIFIC) > SYMBOL_MOST)
        return ITEM_SPECIFIC;
    if (row_word(row, ITEM_CONSTANT) > 9999)
        return ITEM_CONSTANT;
    if (row_word(row, ITEM_PRIORITY) < 3 || row_word(row, ITEM_PRIORITY) > 9)
        return ITEM_PRIORITY;
    uint64_t text = item_text_fault(w->b, row);
    return text != 0 ? text : reference_fault(row);
}

/* K: first three digits in the interval and new in the file. */
static bool number_is_carried(struct walk *w, uint64_t number)
{
    uint64_t three = number / 1000, bit = UINT64_C(1) << three % 64;
    bool fresh = (w->met[three / 64] & bit) == 0;
    w->met[three / 64] |= bit;
    return fresh && three >= w->b->from && three <= w->b->to;
}

static uint64_t file_narrowed(struct walk *w, const uint8_t *row)
{
    if (row_word(row, FILE_KIND) > w->b->sheet->last_kind)
        return FILE_KIND;
    if (w->b->sheet->interval &&
        !number_is_carried(w, row_word(row, FILE_NUMBER)))
        return FILE_NUMBER;
    return 0;
}

/* Would a part with this text come back as the name? */
static bool holds_name_mark(struct bytes text)
{
    for (size_t at = 0; text.len - at >= 4; at++)
        if (starts_with(text, at, " NP:", 4))
            return true;
    return false;
}

static uint64_t text_narrowed(const struct batch *b, const uint8_t *row)
{
    enum peer_tail tail = b->sheet->tail;
    for (size_t part = 0; part < MOST_PARTS; part++) {
        struct bytes text = row_text(b, row, part_word(part));
        if (text.len > 0 &&
            ((tail == PEER_TAIL_PART && part > 0) ||
             (tail == PEER_TAIL_AV_NP && holds_name_mark(text)) ||
             !sheet_takes_bytes(b->sheet, text.data, text.len)))
            return part_word(part);
    }
    if (tail != PEER_TAIL_AV_NP && row_word(row, ITEM_NAME + 1) != 0)
        return ITEM_NAME;
    return 0;
}

static uint64_t item_narrowed(const struct walk *w, const uint8_t *row)
{
    const struct batch *b = w->b;
    if (w->collects &&
        !sheet_takes_collection(b->sheet, row_word(row, ITEM_BANK), w->day,
                                b->today, b->month_ahead))
        return ITEM_BANK;
    if (row_word(row, ITEM_AMOUNT) > b->sheet->item_most)
        return ITEM_AMOUNT;
    if (!b->sheet->priority && row_word(row, ITEM_PRIORITY) != USUAL_PRIORITY)
        return ITEM_PRIORITY;
    return text_narrowed(b, row);
}

/* The group in hand, if any, ends: its total is known, and `3 +` follows. */
static void close_group(struct walk *w)
{
    if (w->sum != 0)
        w->bytes += digits_of(w->sum) + 5;
    w->sum = 0;
}

static bool walk_file(struct walk *w, const uint8_t *row, uint64_t n,
                      uint64_t *field)
{
    if (w->files == MOST_FILES)
        return false;
    w->files++;
    w->file_items = 0;
    *field = file_fault(row);
    if (*field != 0)
        return false;
    uint64_t narrowed = file_narrowed(w, row);
    if (narrowed != 0)
        note_21(w, n, narrowed);
    close_group(w);
    w->collects = sheet_collects(w->b->sheet, row_word(row, FILE_KIND));
    w->bytes += 5; /* the account file's `5 +` */
    w->due = AFTER_FILE;
    return true;
}

static bool walk_group(struct walk *w, const uint8_t *row, uint64_t n,
                       uint64_t *field)
{
    *field = group_fault(row);
    if (*field != 0)
        return false;
    w->day = day_number(row_word(row, GROUP_DATE));
    if (!w->collects && !sheet_takes_day(w->b->sheet, w->day, w->b->today))
        note_21(w, n, GROUP_DATE);
    close_group(w);
    w->single = account_is_none(row_account(row, GROUP_PAYER));
    w->due = AFTER_GROUP;
    return true;
}

static bool walk_item(struct walk *w, const uint8_t *row, uint64_t n,
                      uint64_t *field)
{
    if (w->file_items == MOST_ITEMS)
        return false;
    *field = item_fault(w, row);
    if (*field != 0)
        return false;
    if (w->items == w->b->sheet->all_items)
        note_21(w, n, 0);
    uint64_t narrowed = item_narrowed(w, row);
    if (narrowed != 0)
        note_21(w, n, narrowed);
    w->file_items++;
    w->items++;
    w->sum += row_word(row, ITEM_AMOUNT);
    w->due = AFTER_ITEM;
    return true;
}

/* One row; false is 20 at the field. */
static bool walk_row(struct walk *w, const uint8_t *row, uint64_t n,
                     uint64_t *field)
{
    uint64_t kind = row_word(row, 0);
    bool right;
    *field = 0;
    if (kind > ROW_ITEM || (w->due >> kind & 1) == 0)
        return false;
    if (kind == ROW_FILE)
        right = walk_file(w, row, n, field);
    else if (kind == ROW_GROUP)
        right = walk_group(w, row, n, field);
    else
        right = walk_item(w, row, n, field);
    if (right)
        w->bytes += peer_line_bytes(w->b, row);
    return right;
}

struct finding peer_judge_batch(const struct batch *b)
{
    struct walk w = {.b = b, .due = AT_START};
    uint64_t count = b->rows.len / ROW_BYTES, field;
    w.bytes = b->sheet->header ? 60 : 6;
    if (b->sheet->header) {
        field = header_fault(b);
        if (field != 0)
            return (struct finding){20, 0, field, 0};
        if (b->sheet->interval && b->from > b->to)
            note_21(&w, 0, HEADER_TO);
    }
    for (uint64_t n = 1; n <= count; n++) {
        const uint8_t *row = b->rows.data + (size_t)(n - 1) * ROW_BYTES;
        if (!walk_row(&w, row, n, &field))
            return (struct finding){20, n, field, 0};
    }
    /* A batch may stop only behind an item; bytes left over are a row that is
       not one. */
    if (w.due != AFTER_ITEM || b->rows.len % ROW_BYTES != 0)
        return (struct finding){20, count + 1, 0, 0};
    if (w.first_21.number != 0)
        return w.first_21;
    close_group(&w);
    return (struct finding){0, 0, 0, w.bytes};
}
