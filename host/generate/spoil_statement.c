#include "spoil_statement.h"
#include "plan.h"
#include "record.h"
#include "wild.h"
#include "words.h"

#include <string.h>

enum { RECORD = ABO_RECORD_BYTES, ROW = ABO_STATEMENT_ROW_BYTES, END = 128 };

/* ---- both: pieces of one size go, come twice, or change places ---- */

static void move_pieces(struct text *t, size_t size, struct dice *d)
{
    uint8_t piece[ROW];
    size_t count = t->len / size;
    if (count == 0)
        return;
    size_t at = below(d, count) * size, to = below(d, count) * size;
    memcpy(piece, t->data + at, size);
    switch (below(d, 3)) {
    case 0:
        text_replace(t, at, size, NULL, 0);
        break;
    case 1:
        text_replace(t, to, 0, piece, size);
        break;
    default:
        memmove(t->data + at, t->data + to, size);
        memcpy(t->data + to, piece, size);
    }
}

/* ---- files ---- */

static uint64_t kind_of(const uint8_t *record)
{
    return memcmp(record, "074", 3) == 0 ? ABO_STATEMENT_HEAD
                                         : ABO_STATEMENT_MOVEMENT;
}

/* A byte of a read field, which may be its sign or its code: another digit, so
   that a sum differs, or no digit. */
static void spoil_field_byte(uint8_t *record, struct dice *d)
{
    static const uint8_t near[] = {'/', ':', ' ', '+', '-', '0', '9', '3',
                                   '1', '2', '4', '5', 0,   'a', 176, 13};
    const struct record_field *f =
        &fields_of_record(kind_of(record))[below(d, RECORD_FIELDS)];
    size_t width = f->width + (f->plus != 0);
    size_t at = f->place + (one_in(d, 3) ? width - 1 : below(d, width));
    uint8_t byte = one_in(d, 8) ? (uint8_t)roll(d) : PICK(d, near);
    if (one_in(d, 3))
        byte = (uint8_t)('0' + below(d, 10));
    record[at] = byte;
}

static void spoil_type(uint8_t *record, struct dice *d)
{
    static const char types[][4] = {"076", "078", "079", "074", "075", "073",
                                    "174", "084", "75 ", " 74", "07\n"};
    memcpy(record, PICK(d, types), 3);
}

static void spoil_end(uint8_t *record, struct dice *d)
{
    static const char ends[][3] = {"\n\r", "\r\r", "\n\n", "  ", "00",
                                   "\r ", " \n"};
    memcpy(record + END, PICK(d, ends), 2);
}

/* A record has a byte too many or too few, or other ends. */
static void spoil_length(struct text *file, size_t at, struct dice *d)
{
    uint8_t byte = telling_byte(d);
    size_t place = at + below(d, RECORD);
    switch (below(d, 4)) {
    case 0:
        text_replace(file, place, 1, NULL, 0);
        break;
    case 1:
        text_replace(file, place, 0, &byte, 1);
        break;
    case 2: /* LF alone, and a record of 129 bytes */
        text_replace(file, at + END, 1, NULL, 0);
        break;
    default:
        text_replace(file, at + END, 2, NULL, 0);
    }
}

/* The file ends early, or goes on with what is no record. */
static void spoil_file_end(struct text *file, struct dice *d)
{
    static const char *const more[] = {"\032", "\r\n", "\n", " ", "074", "075",
                                       "078Platba za led\r\n"};
    switch (below(d, 4)) {
    case 0:
        file->len = below(d, file->len + 1);
        break;
    case 1: /* a record of one byte less, which may be its LF */
        file->len -= file->len > 0;
        break;
    case 2:
        text_repeat(file, telling_byte(d), between(d, 1, RECORD - 1));
        break;
    default:
        text_words(file, PICK(d, more));
    }
}

void spoil_statement_file(struct text *file, struct dice *d)
{
    size_t count = file->len / RECORD;
    if (count == 0) {
        text_repeat(file, telling_byte(d), below(d, 2 * RECORD));
        return;
    }
    size_t at = below(d, count) * RECORD;
    switch (below(d, 12)) {
    case 0:
        spoil_type(file->data + at, d);
        break;
    case 1:
        spoil_end(file->data + at, d);
        break;
    case 2:
        spoil_length(file, at, d);
        break;
    case 3:
        spoil_file_end(file, d);
        break;
    case 4:
        move_pieces(file, RECORD, d);
        break;
    case 5: /* any byte, kept ones too */
        file->data[at + below(d, RECORD)] = telling_byte(d);
        break;
    default:
        spoil_field_byte(file->data + at, d);
    }
}

/* ---- rows ---- */

static uint64_t word_at(const uint8_t *row, size_t word)
{
    return number_at(row + 8 * word, 8);
}

static void set_word_at(uint8_t *row, size_t word, uint64_t value)
{
    for (size_t i = 0; i < 8; i++, value >>= 8)
        row[8 * word + i] = (uint8_t)value;
}

/* The least number with so many digits and one. */
static uint64_t past_digits(size_t digits)
{
    uint64_t value = 1;
    while (digits-- > 0)
        value *= 10;
    return value;
}

void wild_statement_word(struct text *rows, struct dice *d)
{
    static const size_t digits[] = {1, 6, 10, 12, 14, 16, 19};
    size_t count = rows->len / ROW;
    if (count == 0)
        return;
    uint8_t *row = rows->data + below(d, count) * ROW;
    size_t word = below(d, ABO_STATEMENT_WORDS);
    uint64_t limit = past_digits(PICK(d, digits)) - below(d, 2);
    switch (below(d, 4)) {
    case 0: /* at a limit, either way */
        set_word_at(row, word, one_in(d, 2) ? limit : 0 - limit);
        break;
    case 1:
        set_word_at(row, word, word_at(row, word) + (one_in(d, 2) ? 1 : -1));
        break;
    case 2: /* the other sign */
        set_word_at(row, word, 0 - word_at(row, word));
        break;
    default:
        set_word_at(row, word, wild_number(d, word_at(row, word)));
    }
}

static void spoil_kind(uint8_t *row, struct dice *d)
{
    static const uint64_t kinds[] = {0,  1,  2,  3,          73,         74,
                                     75, 76, 78, 74 + 65536, UINT64_MAX, 0x4a00};
    uint64_t kind = PICK(d, kinds);
    if (one_in(d, 4))
        kind = word_at(row, 0) + (UINT64_C(1) << between(d, 8, 63));
    set_word_at(row, 0, kind);
}

static void spoil_rows_end(struct text *rows, struct dice *d)
{
    size_t odd = between(d, 1, ROW - 1);
    if (one_in(d, 3))
        rows->len = below(d, rows->len + 1);
    else if (rows->len >= ROW && one_in(d, 2))
        rows->len -= odd;
    else /* as if a row of a kind that may be due began there */
        while (odd-- > 0)
            text_byte(rows, rows->len % ROW == 0 ? 75 : 0);
}

void spoil_statement_rows(struct text *rows, struct dice *d)
{
    size_t count = rows->len / ROW;
    if (count == 0) {
        text_repeat(rows, 75, below(d, ROW));
        return;
    }
    size_t at = below(d, count) * ROW;
    switch (below(d, 8)) {
    case 0:
        spoil_kind(rows->data + at, d);
        break;
    case 1:
        spoil_rows_end(rows, d);
        break;
    case 2:
        move_pieces(rows, ROW, d);
        break;
    case 3: /* a code, or what is none */
        set_word_at(rows->data + at, ABO_MOVEMENT_CODE, below(d, 8));
        break;
    case 4: /* any byte, kept ones too */
        rows->data[at + below(d, ROW)] = (uint8_t)roll(d);
        break;
    default:
        wild_statement_word(rows, d);
    }
}

void wild_statement_rows(struct text *rows, struct dice *d)
{
    static const uint64_t small[] = {0, 1, 2, 4, 5, 74, 75};
    size_t bytes = below(d, 6 * ROW);
    text_clear(rows);
    while (rows->len < bytes)
        text_word(rows, one_in(d, 2) ? PICK(d, small) : roll_bits(d));
    for (size_t at = 0; at + 8 <= bytes; at += ROW) /* a look behind word 0 */
        if (one_in(d, 2))
            set_word_at(rows->data + at, 0, at == 0 ? 74 : 75);
    rows->len = bytes;
}
