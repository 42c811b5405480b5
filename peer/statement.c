/* Both kinds of records are tables; what is done with a field is written once
   for both. */
#include "statement.h"
#include "internal.h"

enum { TYPE_BYTES = 3, FIELDS = 5, KEPT_RUNS = 2, RECORD_END = 128 };

enum field_kind { FIELD_ACCOUNT, FIELD_NUMBER, FIELD_CODE };

struct field {
    enum field_kind kind;
    size_t place, digits;
    uint64_t word; /* an account takes the next word too */
    uint8_t sign;  /* of what is not below zero, behind the digits; 0 is none */
};

/* A run of bytes that are neither tested nor changed. */
struct kept {
    size_t place, len;
};

struct form {
    char type[TYPE_BYTES];
    struct field fields[FIELDS];
    struct kept kept[KEPT_RUNS];
};

static const struct form head = {
    {'0', '7', '4'},
    {
        {FIELD_ACCOUNT, 3, ACCOUNT_DIGITS, RECORD_ACCOUNT, 0},
        {FIELD_NUMBER, 45, 14, HEAD_OLD, '+'},
        {FIELD_NUMBER, 60, 14, HEAD_NEW, '+'},
        {FIELD_NUMBER, 75, 14, HEAD_DEBIT, '0'},
        {FIELD_NUMBER, 90, 14, HEAD_CREDIT, '0'},
    },
    {{19, 26}, {105, 23}},
};

static const struct form movement = {
    {'0', '7', '5'},
    {
        {FIELD_ACCOUNT, 3, ACCOUNT_DIGITS, RECORD_ACCOUNT, 0},
        {FIELD_ACCOUNT, 19, ACCOUNT_DIGITS, MOVEMENT_OTHER, 0},
        {FIELD_NUMBER, 48, 12, MOVEMENT_AMOUNT, 0},
        {FIELD_CODE, 60, 1, MOVEMENT_CODE, 0},
        {FIELD_NUMBER, 61, 10, MOVEMENT_VARIABLE, 0},
    },
    {{35, 13}, {71, 57}},
};

static const struct form *form_of(uint64_t kind)
{
    return kind == ROW_HEAD ? &head : &movement;
}

/* Nothing but the count tells where a record ends, as CR and LF may be among
   its kept bytes. */
uint64_t peer_record_kind(struct bytes file, size_t at)
{
    if (file.len - at < RECORD_BYTES ||
        !starts_with(file, at + RECORD_END, "\r\n", 2))
        return 0;
    if (starts_with(file, at, head.type, TYPE_BYTES))
        return ROW_HEAD;
    return starts_with(file, at, movement.type, TYPE_BYTES) ? ROW_MOVEMENT : 0;
}

static bool is_code(uint64_t code)
{
    return code == CODE_DEBIT || code == CODE_CREDIT ||
           code == CODE_DEBIT_REVERSED || code == CODE_CREDIT_REVERSED;
}

static bool is_negative(uint64_t word)
{
    return word >> 63 != 0;
}

/* Without its sign; right for the least of all words too. */
static uint64_t magnitude(uint64_t word)
{
    return is_negative(word) ? 0 - word : word;
}

/* The sign behind a number's digits.  Zero stays zero with either sign. */
static size_t take_sign(const uint8_t *record, const struct field *f,
                        uint64_t *words)
{
    size_t place = f->place + f->digits;
    if (record[place] == '-')
        words[f->word] = 0 - words[f->word];
    else if (record[place] != f->sign)
        return place;
    return 0;
}

/* Gives back the place at fault or 0, as for the whole record. */
static size_t take_field(const uint8_t *record, const struct field *f,
                         uint64_t *words)
{
    struct bytes digits = {record + f->place, f->digits};
    struct run run = digit_run(digits, 0);
    if (run.end != digits.len)
        return f->place;
    words[f->word] = run.value;
    if (f->kind == FIELD_ACCOUNT) {
        struct account account = take_internal(digits.data);
        words[f->word] = account.prefix;
        words[f->word + 1] = account.base;
    }
    if (f->kind == FIELD_CODE && !is_code(run.value))
        return f->place;
    return f->sign != 0 ? take_sign(record, f, words) : 0;
}

size_t peer_record_take(const uint8_t *record, uint64_t kind, uint64_t *words)
{
    const struct form *form = form_of(kind);
    memset(words, 0, STATEMENT_WORDS * sizeof *words);
    words[0] = kind;
    for (size_t i = 0; i < FIELDS; i++) {
        size_t fault = take_field(record, &form->fields[i], words);
        if (fault != 0)
            return fault;
    }
    return 0;
}

/* The word refused, or 0: a prefix and a base are refused apart. */
static uint64_t field_fault(const struct field *f, const uint64_t *words)
{
    uint64_t word = words[f->word];
    switch (f->kind) {
    case FIELD_ACCOUNT:
        if (digits_of(word) > PREFIX_DIGITS)
            return f->word;
        return digits_of(words[f->word + 1]) > BASE_DIGITS ? f->word + 1 : 0;
    case FIELD_CODE:
        return is_code(word) ? 0 : f->word;
    default:
        if (f->sign != 0)
            word = magnitude(word);
        return digits_of(word) > f->digits ? f->word : 0;
    }
}

uint64_t peer_record_fault(const uint64_t *words)
{
    const struct form *form = form_of(words[0]);
    for (size_t i = 0; i < FIELDS; i++) {
        uint64_t fault = field_fault(&form->fields[i], words);
        if (fault != 0)
            return fault;
    }
    return 0;
}

size_t peer_record_place(uint64_t kind, uint64_t word)
{
    const struct field *f = form_of(kind)->fields;
    while (f->word != word)
        f++;
    return f->place;
}

void peer_record_fill(const uint8_t *record, uint64_t kind, uint8_t *row)
{
    const struct form *form = form_of(kind);
    uint64_t words[STATEMENT_WORDS];
    uint8_t *kept = row + 8 * STATEMENT_WORDS;
    peer_record_take(record, kind, words);
    memset(row, 0, STATEMENT_ROW_BYTES);
    for (size_t i = 0; i < STATEMENT_WORDS; i++)
        store_word(row + 8 * i, words[i]);
    for (size_t i = 0; i < KEPT_RUNS; i++) {
        memcpy(kept, record + form->kept[i].place, form->kept[i].len);
        kept += form->kept[i].len;
    }
}

static void put_field(uint8_t *record, const struct field *f,
                      const uint64_t *words)
{
    uint64_t word = words[f->word];
    uint8_t *out = record + f->place;
    if (f->kind == FIELD_ACCOUNT) {
        put_internal(out, (struct account){word, words[f->word + 1]});
    } else if (f->sign == 0) {
        put_padded(out, word, f->digits);
    } else {
        out = put_padded(out, magnitude(word), f->digits);
        *out = is_negative(word) ? '-' : f->sign;
    }
}

void peer_record_spell(const uint8_t *row, uint8_t *record)
{
    uint64_t words[STATEMENT_WORDS];
    const uint8_t *kept = row + 8 * STATEMENT_WORDS;
    peer_row_words(row, words);
    const struct form *form = form_of(words[0]);
    memcpy(record, form->type, TYPE_BYTES);
    for (size_t i = 0; i < FIELDS; i++)
        put_field(record, &form->fields[i], words);
    for (size_t i = 0; i < KEPT_RUNS; i++) {
        memcpy(record + form->kept[i].place, kept, form->kept[i].len);
        kept += form->kept[i].len;
    }
    memcpy(record + RECORD_END, "\r\n", 2);
}

void peer_row_words(const uint8_t *row, uint64_t *words)
{
    for (size_t i = 0; i < STATEMENT_WORDS; i++)
        words[i] = load_word(row + 8 * i);
}
