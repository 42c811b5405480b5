#include "record.h"

static const struct record_field head_record[RECORD_FIELDS] = {
    {3, 16, ABO_HEAD_PREFIX, 0},
    {45, 14, ABO_HEAD_OLD_BALANCE, '+'},
    {60, 14, ABO_HEAD_NEW_BALANCE, '+'},
    {75, 14, ABO_HEAD_DEBIT, '0'},
    {90, 14, ABO_HEAD_CREDIT, '0'},
};

static const struct record_field movement_record[RECORD_FIELDS] = {
    {3, 16, ABO_MOVEMENT_PREFIX, 0},
    {19, 16, ABO_MOVEMENT_OTHER_PREFIX, 0},
    {48, 12, ABO_MOVEMENT_AMOUNT, 0},
    {60, 1, ABO_MOVEMENT_CODE, 0},
    {61, 10, ABO_MOVEMENT_VARIABLE, 0},
};

const struct record_field *fields_of_record(uint64_t kind)
{
    return kind == ABO_STATEMENT_HEAD ? head_record : movement_record;
}

/* C10 C8 C9 C6 C1 .. C5 C7, then the prefix: each digit by a division of its
   own, so that no table is shared with what is tested. */
static void put_account(struct text *file, const struct abo_account *a)
{
    static const unsigned base_digits[] = {10, 8, 9, 6, 1, 2, 3, 4, 5, 7};
    for (size_t i = 0; i < COUNT_OF(base_digits); i++) {
        uint64_t base = a->base;
        for (unsigned k = base_digits[i]; k < 10; k++)
            base /= 10;
        text_byte(file, (uint8_t)('0' + base % 10));
    }
    text_number(file, a->prefix, 6);
}

static void put_signed(struct text *file, int64_t value, uint8_t plus,
                       bool minus_zero)
{
    bool minus = value < 0 || (value == 0 && minus_zero);
    text_number(file, (uint64_t)(value < 0 ? -value : value), 14);
    text_byte(file, minus ? '-' : plus);
}

static void put_head(struct text *file, const struct abo_statement_head *h,
                     bool minus_zero)
{
    text_words(file, "074");
    put_account(file, &h->account);
    text_bytes(file, h->name, sizeof h->name);
    text_bytes(file, h->old_day, sizeof h->old_day);
    put_signed(file, h->old_balance, '+', minus_zero);
    put_signed(file, h->new_balance, '+', minus_zero);
    put_signed(file, h->debit, '0', minus_zero);
    put_signed(file, h->credit, '0', minus_zero);
    text_bytes(file, h->number, sizeof h->number);
    text_bytes(file, h->posted_day, sizeof h->posted_day);
    text_bytes(file, h->rest, sizeof h->rest);
}

static void put_movement(struct text *file,
                         const struct abo_statement_movement *m)
{
    text_words(file, "075");
    put_account(file, &m->account);
    put_account(file, &m->other);
    text_bytes(file, m->document, sizeof m->document);
    text_number(file, m->amount, 12);
    text_number(file, m->code, 1);
    text_number(file, m->variable, 10);
    text_bytes(file, m->constant, sizeof m->constant);
    text_bytes(file, m->specific, sizeof m->specific);
    text_bytes(file, m->value_day, sizeof m->value_day);
    text_bytes(file, m->text, sizeof m->text);
    text_byte(file, m->change);
    text_bytes(file, m->kind, sizeof m->kind);
    text_bytes(file, m->due_day, sizeof m->due_day);
}

void put_record(struct text *file, const union abo_statement_row *row,
                bool minus_zero)
{
    if (row->head.row == ABO_STATEMENT_HEAD)
        put_head(file, &row->head, minus_zero);
    else
        put_movement(file, &row->movement);
    text_words(file, "\r\n");
}
