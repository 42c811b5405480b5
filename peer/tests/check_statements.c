#include "check_statements.h"

struct lent test_file, test_rows;

/* ---- files ---- */

void file_start(void)
{
    test_file.len = 0;
}

static void add_record(const char *text)
{
    size_t len = strlen(text);
    if (len != RECORD || test_file.len + len > sizeof test_file.bytes) {
        printf("a record of the tests has %d bytes, or no room\n", (int)len);
        exit(2);
    }
    memcpy(test_file.bytes + test_file.len, text, len);
    test_file.len += len;
}

void file_head(int64_t old_balance, int64_t new_balance, int64_t debit,
               int64_t credit)
{
    char text[400];
    snprintf(text, sizeof text,
             "0749010000000000019KLIENT TEST         010118"
             "%014lld%c%014lld%c%014lld%c%014lld%c"
             "001020118FIO           \r\n",
             llabs((long long)old_balance), old_balance < 0 ? '-' : '+',
             llabs((long long)new_balance), new_balance < 0 ? '-' : '+',
             llabs((long long)debit), debit < 0 ? '-' : '0',
             llabs((long long)credit), credit < 0 ? '-' : '0');
    add_record(text);
}

void file_move(uint64_t amount, char code)
{
    char text[400];
    snprintf(text, sizeof text,
             "075901000000000001972582267105000051234567890123"
             "%012llu%c0000000042"
             "00080005580000000017020118PLATBA ZA ENERGIE   01101020118\r\n",
             (unsigned long long)amount, code);
    add_record(text);
}

void file_frame(void)
{
    file_start();
    file_head(10000, 6649, 4001, 650);
    file_move(5001, '1');
    file_move(1000, '4');
    file_move(700, '2');
    file_move(50, '5');
}

void file_put(uint64_t record, size_t place, const char *text)
{
    memcpy(test_file.bytes + (record - 1) * RECORD + place, text,
           strlen(text));
}

/* ---- rows ---- */

uint64_t row_value(uint64_t row, size_t word)
{
    const uint8_t *at = test_rows.bytes + (row - 1) * STATEMENT_ROW + 8 * word;
    uint64_t value = 0;
    for (int i = 7; i >= 0; i--)
        value = value << 8 | at[i];
    return value;
}

void row_set(uint64_t row, size_t word, uint64_t value)
{
    uint8_t *at = test_rows.bytes + (row - 1) * STATEMENT_ROW + 8 * word;
    for (int i = 0; i < 8; i++)
        at[i] = (uint8_t)(value >> 8 * i);
}

/* Word 7 of a head and what is behind the kept bytes are zero. */
static bool row_is_tidy(uint64_t row)
{
    const uint8_t *at = test_rows.bytes + (row - 1) * STATEMENT_ROW;
    bool head = row_value(row, 0) == 74;
    for (size_t i = head ? 113 : 134; i < STATEMENT_ROW; i++)
        if (at[i] != 0)
            return false;
    return head ? row_value(row, 7) == 0 : row_value(row, 0) == 75;
}

/* ---- reading ---- */

static struct peer_statement_answer read_into(uint8_t *rows, size_t room)
{
    uint8_t *copy = copy_of(test_file.bytes, test_file.len);
    struct peer_statement_answer a =
        peer_statement_read(copy, test_file.len, rows, room);
    CHECK("reading changes no file",
          test_file.len == 0 ||
              memcmp(copy, test_file.bytes, test_file.len) == 0);
    free(copy);
    return a;
}

static void show(struct peer_statement_answer a)
{
    printf("  got %d line %d byte %d rows %d needed %d\n", (int)a.number,
           (int)a.line, (int)a.byte, (int)a.rows, (int)a.needed);
}

/* Wants an answer that fills nothing. */
static void fills_nothing(const char *what, size_t room,
                          struct peer_statement_answer want)
{
    uint8_t *rows = lend(room);
    struct peer_statement_answer a = read_into(rows + GUARD, room);
    bool right = memcmp(&a, &want, sizeof a) == 0;
    CHECK(what, right);
    if (!right)
        show(a);
    CHECK(what, untouched(rows, room + 2 * GUARD));
    free(rows);
}

/* With room and without: 16 comes last. */
void file_refused(const char *what, uint64_t number, uint64_t line,
                  uint64_t byte)
{
    struct peer_statement_answer want = {number, line, byte, 0, 0};
    fills_nothing(what, (test_file.len / RECORD + 1) * STATEMENT_ROW, want);
    fills_nothing(what, 0, want);
}

void file_read(const char *what, uint64_t rows)
{
    size_t used = (size_t)rows * STATEMENT_ROW, more = 7;
    uint8_t *room = lend(used + 1 + more);
    /* One byte off, to have no alignment; the room need be no whole rows. */
    uint8_t *lent = room + GUARD + 1;
    struct peer_statement_answer a = read_into(lent, used + more);
    struct peer_statement_answer want = {0, 0, 0, rows, 0};
    bool right = memcmp(&a, &want, sizeof a) == 0, tidy = true;
    CHECK(what, right);
    if (!right)
        show(a);
    CHECK(what, untouched(room, GUARD + 1) &&
                    untouched(lent + used, more + GUARD));
    if (used > sizeof test_rows.bytes)
        exit(2);
    memcpy(test_rows.bytes, lent, used);
    test_rows.len = used;
    for (uint64_t row = 1; right && row <= rows; row++)
        tidy = tidy && row_is_tidy(row);
    CHECK(what, tidy);
    free(room);
    want = (struct peer_statement_answer){16, 0, 0, 0, rows};
    fills_nothing(what, used - 1, want);
    fills_nothing(what, 0, want);
    /* No byte more than the rows themselves is needed. */
    room = lend(used);
    a = read_into(room + GUARD, used);
    CHECK(what, a.number == 0 && a.rows == rows &&
                    memcmp(room + GUARD, test_rows.bytes, used) == 0);
    free(room);
}

void file_kept(const char *what, uint64_t rows)
{
    file_read(what, rows);
    rows_written(what, &test_file);
}

/* ---- writing ---- */

static struct peer_written write_into(uint8_t *out, size_t room)
{
    uint8_t *copy = malloc(test_rows.len + 1);
    if (copy == NULL)
        exit(2);
    memcpy(copy + 1, test_rows.bytes, test_rows.len);
    struct peer_written w =
        peer_statement_write(copy + 1, test_rows.len, out, room);
    CHECK("writing changes no rows",
          memcmp(copy + 1, test_rows.bytes, test_rows.len) == 0);
    free(copy);
    return w;
}

static void writes_nothing(const char *what, size_t room,
                           struct peer_written want)
{
    uint8_t *out = lend(room);
    struct peer_written w = write_into(out + GUARD, room);
    bool right = memcmp(&w, &want, sizeof w) == 0;
    CHECK(what, right);
    if (!right)
        printf("  got %d row %d field %d bytes %d\n", (int)w.number,
               (int)w.row, (int)w.field, (int)w.bytes);
    CHECK(what, untouched(out, room + 2 * GUARD));
    free(out);
}

void rows_refused(const char *what, uint64_t number, uint64_t row,
                  uint64_t field)
{
    struct peer_written want = {number, row, field, 0};
    writes_nothing(what, (test_rows.len / STATEMENT_ROW + 1) * RECORD, want);
    writes_nothing(what, 0, want);
}

void rows_written(const char *what, const struct lent *want)
{
    size_t more = 7;
    uint8_t *out = lend(want->len + more);
    struct peer_written w = write_into(out + GUARD, want->len + more);
    struct peer_written right = {0, 0, 0, want->len};
    CHECK(what, memcmp(&w, &right, sizeof w) == 0);
    CHECK(what, memcmp(out + GUARD, want->bytes, want->len) == 0);
    CHECK(what, untouched(out, GUARD) &&
                    untouched(out + GUARD + want->len, more + GUARD));
    free(out);
    right = (struct peer_written){16, 0, 0, want->len};
    writes_nothing(what, want->len - 1, right);
    writes_nothing(what, 0, right);
    out = lend(want->len);
    w = write_into(out + GUARD, want->len);
    CHECK(what, w.number == 0 && w.bytes == want->len &&
                    memcmp(out + GUARD, want->bytes, want->len) == 0);
    free(out);
}
