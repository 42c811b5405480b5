#include "statements.h"
#include "plan.h"
#include "record.h"
#include "spoil_statement.h"

#include <string.h>

#define MOST_BALANCE INT64_C(99999999999999)
#define MOST_AMOUNT UINT64_C(999999999999)
#define MOST_BASE UINT64_C(9999999999)

/* Kept bytes lie behind the words, and behind them what is unused. */
enum {
    KEPT_AT = 8 * ABO_STATEMENT_WORDS,
    HEAD_KEPT = offsetof(struct abo_statement_head, unused) - KEPT_AT,
    MOVEMENT_KEPT = offsetof(struct abo_statement_movement, unused) - KEPT_AT
};

/* ---- parts of a row ---- */

static struct abo_account draw_any_account(struct dice *d)
{
    static const struct abo_account edges[] = {
        {0, 0}, {19, 19}, {999999, MOST_BASE}, {0, 1}, {1, 0},
        {500005, 2267180257}, {0, 1107340237}, {100000, 1000000000},
    };
    if (one_in(d, 3))
        return PICK(d, edges);
    struct abo_account a;
    a.prefix = one_in(d, 2) ? 0 : below(d, 1000000);
    a.base = below(d, MOST_BASE + 1);
    return a;
}

/* Bytes with no rule: as banks send them, of any value, or all such as would
   end a line or begin a record. */
static void draw_kept(uint8_t *bytes, size_t len, struct dice *d)
{
    static const uint8_t ends[] = {'\r', '\n', '0', '7', '4', '5', 26, 0};
    uint64_t way = below(d, 4);
    for (size_t i = 0; i < len; i++)
        bytes[i] = way == 0   ? (uint8_t)roll(d)
                   : way == 1 ? PICK(d, ends)
                   : way == 2 ? ' '
                              : (uint8_t)('0' + below(d, 10));
}

static uint64_t draw_movement_amount(struct dice *d)
{
    static const uint64_t edges[] = {0, 1, 99, 100, MOST_AMOUNT,
                                     MOST_AMOUNT - 1};
    if (one_in(d, 4))
        return PICK(d, edges);
    uint64_t amount = roll_bits(d);
    return amount % (MOST_AMOUNT + 1);
}

static union abo_statement_row *row_added(struct text *rows, uint64_t kind)
{
    size_t at = rows->len;
    text_repeat(rows, 0, ABO_STATEMENT_ROW_BYTES);
    union abo_statement_row *row = (void *)(rows->data + at);
    row->word[0] = kind;
    return row;
}

static void draw_movement(struct abo_statement_movement *m, struct dice *d)
{
    static const uint64_t codes[] = {1, 2, 4, 5, 1, 2};
    m->account = draw_any_account(d);
    m->other = draw_any_account(d);
    m->amount = draw_movement_amount(d);
    m->code = PICK(d, codes);
    m->variable = one_in(d, 4) ? MOST_BASE : below(d, MOST_BASE + 1);
    draw_kept((uint8_t *)m + KEPT_AT, MOVEMENT_KEPT, d);
}

/* What the movements behind a head add up to. */
static void add_up(struct abo_statement_head *head,
                   const union abo_statement_row *rows, size_t count)
{
    for (size_t i = 0; i < count; i++) {
        const struct abo_statement_movement *m = &rows[i].movement;
        int64_t amount = (int64_t)m->amount;
        if (m->code == ABO_CODE_DEBIT || m->code == ABO_CODE_DEBIT_REVERSED)
            head->debit += m->code == ABO_CODE_DEBIT ? amount : -amount;
        else
            head->credit += m->code == ABO_CODE_CREDIT ? amount : -amount;
    }
}

/* Both balances stay below 10^14 either way, and are at its edge at times. */
static void draw_balances(struct abo_statement_head *head, struct dice *d)
{
    int64_t change = head->credit - head->debit;
    int64_t least = change < 0 ? -MOST_BALANCE - change : -MOST_BALANCE;
    int64_t most = change < 0 ? MOST_BALANCE : MOST_BALANCE - change;
    int64_t edges[] = {0, -change, least, most};
    int64_t old = PICK(d, edges);
    if (one_in(d, 2))
        old = least + (int64_t)below(d, (uint64_t)(most - least) + 1);
    if (old < least || old > most)
        old = least;
    head->old_balance = old;
    head->new_balance = old + change;
}

static void put_valid_statement(struct text *rows, size_t movements,
                                struct dice *d)
{
    size_t at = rows->len;
    struct abo_statement_head head = {.row = ABO_STATEMENT_HEAD};
    row_added(rows, ABO_STATEMENT_HEAD);
    for (size_t i = 0; i < movements; i++)
        draw_movement(&row_added(rows, ABO_STATEMENT_MOVEMENT)->movement, d);
    add_up(&head, (const union abo_statement_row *)(rows->data + at) + 1,
           movements);
    head.account = draw_any_account(d);
    draw_balances(&head, d);
    draw_kept((uint8_t *)&head + KEPT_AT, HEAD_KEPT, d);
    memcpy(rows->data + at, &head, sizeof head);
}

void put_valid_rows(struct text *rows, struct dice *d)
{
    text_clear(rows);
    for (uint64_t count = one_in(d, 2) ? 1 : between(d, 1, 4); count > 0;
         count--) {
        uint64_t movements = below(d, 6);
        put_valid_statement(rows, (size_t)movements, d);
    }
}

/* Words and bytes that are not looked at. */
static void make_dirty(struct text *rows, struct dice *d)
{
    size_t count = rows->len / ABO_STATEMENT_ROW_BYTES;
    union abo_statement_row *row = (void *)rows->data;
    for (size_t i = 0; i < count; i++) {
        bool head = row[i].word[0] == ABO_STATEMENT_HEAD;
        uint8_t *unused = head ? row[i].head.unused : row[i].movement.unused;
        size_t len = head ? sizeof row[i].head.unused
                          : sizeof row[i].movement.unused;
        if (head)
            row[i].head.unused_word = roll(d);
        while (len > 0)
            unused[--len] = (uint8_t)roll(d);
    }
}

void put_file_of_rows(struct text *file, const struct text *rows,
                      struct dice *d)
{
    const union abo_statement_row *row = (const void *)rows->data;
    text_clear(file);
    for (size_t i = 0; i < rows->len / ABO_STATEMENT_ROW_BYTES; i++)
        put_record(file, &row[i], d != NULL && one_in(d, 2));
}

/* ---- by seeds ---- */

/* How many things are made wrong: none in every third, else mostly one. */
static uint64_t draw_faults(struct dice *d)
{
    if (one_in(d, 3))
        return 0;
    return one_in(d, 4) ? between(d, 2, 3) : 1;
}

void generate_statement(struct text *file, uint64_t seed)
{
    struct dice d = {seed};
    struct text rows = {0};
    put_valid_rows(&rows, &d);
    put_file_of_rows(file, &rows, &d);
    text_free(&rows);
    for (uint64_t faults = draw_faults(&d); faults > 0; faults--)
        spoil_statement_file(file, &d);
}

void draw_statement(struct text *rows, uint64_t seed)
{
    struct dice d = {seed};
    if (seed % 16 == 15) {
        wild_statement_rows(rows, &d);
        return;
    }
    put_valid_rows(rows, &d);
    if (one_in(&d, 2))
        make_dirty(rows, &d);
    for (uint64_t faults = draw_faults(&d); faults > 0; faults--)
        spoil_statement_rows(rows, &d);
}

/* ---- at the limits ---- */

/* A movement of many, told from its neighbours by its variable symbol. */
static void put_one_of_many(struct text *rows, uint64_t code, uint64_t amount,
                            uint64_t variable)
{
    struct abo_statement_movement *m =
        &row_added(rows, ABO_STATEMENT_MOVEMENT)->movement;
    m->account = (struct abo_account){19, 19};
    m->other = (struct abo_account){500005, 2267180257};
    m->amount = amount;
    m->code = code;
    m->variable = variable;
    memset((uint8_t *)m + KEPT_AT, '0', MOVEMENT_KEPT);
}

/* The head that was begun at a place, as the rows behind it add up. */
static void fill_head(struct text *rows, size_t from, int64_t old)
{
    struct abo_statement_head *head = (void *)(rows->data + from);
    head->row = ABO_STATEMENT_HEAD;
    head->account = (struct abo_account){19, 19};
    memset((uint8_t *)head + KEPT_AT, ' ', HEAD_KEPT);
    add_up(head, (const union abo_statement_row *)(rows->data + from) + 1,
           (rows->len - from) / ABO_STATEMENT_ROW_BYTES - 1);
    head->old_balance = old;
    head->new_balance = old - head->debit + head->credit;
}

/* Movements are spelled once and then copied, so that a large file is made
   soon. */
enum { POOL = 1009 };
struct pool {
    struct text rows, records;
};

static void fill_pool(struct pool *p)
{
    static const uint64_t codes[] = {1, 2, 2, 4, 1, 5, 2};
    for (uint64_t i = 0; i < POOL; i++)
        put_one_of_many(&p->rows, codes[i % COUNT_OF(codes)],
                        (i + 1) * 7919 % 9999999, i);
    put_file_of_rows(&p->records, &p->rows, NULL);
}

/* So many of the pool from a place on, with the head that they have. */
static void put_from_pool(struct text *file, const struct pool *p, size_t from,
                          size_t movements, int64_t old)
{
    const union abo_statement_row *rows = (const void *)p->rows.data;
    struct text head = {0};
    size_t at = file->len;
    row_added(&head, ABO_STATEMENT_HEAD);
    fill_head(&head, 0, old);
    struct abo_statement_head *h = (void *)head.data;
    text_repeat(file, 0, ABO_RECORD_BYTES);
    for (size_t i = 0; i < movements; i++) {
        size_t which = (from + i) % POOL;
        add_up(h, &rows[which], 1);
        text_bytes(file, p->records.data + which * ABO_RECORD_BYTES,
                   ABO_RECORD_BYTES);
    }
    h->new_balance = old - h->debit + h->credit;
    struct text record = {0};
    put_record(&record, (const void *)h, false);
    memcpy(file->data + at, record.data, ABO_RECORD_BYTES);
    text_free(&record);
    text_free(&head);
}

void put_many_statements(struct text *file, size_t statements,
                         size_t movements)
{
    struct pool pool = {{0}, {0}};
    fill_pool(&pool);
    text_clear(file);
    for (size_t i = 0; i < statements; i++)
        put_from_pool(file, &pool, i * movements, movements,
                      (int64_t)i * 1001);
    text_free(&pool.rows);
    text_free(&pool.records);
}

/* What its movements of the greatest amount add up to, of one code or of a code
   and its reversal, and one movement more; what is then said as the turnover is
   right if it has fourteen digits, and else the nearest that has. */
struct limit {
    uint64_t number, code, reversed;
    unsigned times, times_reversed;
    uint64_t more;
};

static const struct limit limits[] = {
    {0, 1, 4, 100, 0, 99},    /* 10^14 - 1 */
    {52, 1, 4, 100, 0, 100},  /* 10^14 */
    {0, 2, 5, 100, 0, 99},
    {52, 2, 5, 100, 0, 100},
    {0, 4, 1, 100, 0, 99},    /* and below zero */
    {52, 4, 1, 100, 0, 100},
    {0, 5, 2, 100, 0, 99},
    {52, 5, 2, 100, 0, 100},
    {0, 1, 4, 250, 150, 99},  /* beyond it, and back */
    {0, 2, 5, 250, 150, 99},
    {0, 4, 1, 250, 150, 99},
    {0, 5, 2, 250, 150, 99},
    {0, 1, 4, 1000, 1000, 0}, /* far beyond it, and back to zero */
    {0, 2, 5, 1000, 1000, 0},
    {52, 1, 4, 101, 0, 0},
    {52, 1, 4, 3000, 0, 0},
};

static int64_t fourteen_digits(int64_t value)
{
    return value > MOST_BALANCE    ? MOST_BALANCE
           : value < -MOST_BALANCE ? -MOST_BALANCE
                                   : value;
}

static void put_limit(struct text *file, const struct limit *limit)
{
    struct text rows = {0};
    row_added(&rows, ABO_STATEMENT_HEAD);
    for (unsigned i = 0; i < limit->times; i++)
        put_one_of_many(&rows, limit->code, MOST_AMOUNT, i);
    for (unsigned i = 0; i < limit->times_reversed; i++)
        put_one_of_many(&rows, limit->reversed, MOST_AMOUNT, i);
    put_one_of_many(&rows, limit->code, limit->more, 0);
    fill_head(&rows, 0, 0);
    struct abo_statement_head *head = (void *)rows.data;
    head->debit = fourteen_digits(head->debit);
    head->credit = fourteen_digits(head->credit);
    head->new_balance = head->credit - head->debit;
    put_file_of_rows(file, &rows, NULL);
    text_free(&rows);
}

/* Balances at their ends: the new one needs a digit more than there is, and the
   rest of it is what the record says. */
static void put_balance_limit(struct text *file, int64_t old, uint64_t code)
{
    struct text rows = {0};
    row_added(&rows, ABO_STATEMENT_HEAD);
    put_one_of_many(&rows, code, 1, 0);
    fill_head(&rows, 0, old);
    struct abo_statement_head *head = (void *)rows.data;
    if (head->new_balance > MOST_BALANCE || head->new_balance < -MOST_BALANCE)
        head->new_balance = 0;
    put_file_of_rows(file, &rows, NULL);
    text_free(&rows);
}

bool corner_statement(struct text *file, uint64_t *number, unsigned place)
{
    static const struct {
        size_t statements, movements;
    } many[] = {{1, 0}, {1, 1}, {1, 1000}, {1000, 0}, {1000, 1}, {30, 30}};
    *number = 0;
    if (place < COUNT_OF(limits)) {
        put_limit(file, &limits[place]);
        *number = limits[place].number;
        return true;
    }
    place -= COUNT_OF(limits);
    if (place < COUNT_OF(many)) {
        put_many_statements(file, many[place].statements,
                            many[place].movements);
        return true;
    }
    place -= COUNT_OF(many);
    if (place >= 8)
        return false;
    /* four codes at either end: 1 and 5 go down, 2 and 4 up */
    static const uint64_t codes[] = {1, 2, 4, 5};
    uint64_t code = codes[place % 4];
    bool up = code == ABO_CODE_CREDIT || code == ABO_CODE_DEBIT_REVERSED;
    put_balance_limit(file, place < 4 ? MOST_BALANCE : -MOST_BALANCE, code);
    *number = up == (place < 4) ? ABO_BAD_BALANCE : 0;
    return true;
}
