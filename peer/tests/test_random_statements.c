/* Random statements come back as they were; random damage to files and rows
   neither crashes nor touches what is not lent. */
#include "check_statements.h"

enum { MOST_ROWS = 60 };

/* ---- valid files ---- */

static void draw_digits(uint8_t *at, size_t len)
{
    for (size_t i = 0; i < len; i++)
        at[i] = (uint8_t)('0' + below(10));
}

static void draw_bytes(uint8_t *at, size_t len)
{
    for (size_t i = 0; i < len; i++)
        at[i] = one_in(8) ? (uint8_t)"\r\n"[below(2)] : (uint8_t)below(256);
}

static uint64_t draw_amount(void)
{
    return one_in(4) ? 0 : one_in(3) ? BELOW_12 : below(one_in(2) ? 1000
                                                                  : BELOW_12);
}

/* The head is built last, when the sums are known, and put above. */
static void draw_statement(void)
{
    size_t at = test_file.len, moves = (size_t)below(8);
    int64_t debit = 0, credit = 0, old;
    file_head(0, 0, 0, 0);
    for (size_t i = 0; i < moves; i++) {
        uint64_t amount = draw_amount();
        char code = "1245"[below(4)];
        int64_t *sum = code == '1' || code == '4' ? &debit : &credit;
        *sum += code == '1' || code == '2' ? (int64_t)amount
                                           : -(int64_t)amount;
        file_move(amount, code);
        uint8_t *record = test_file.bytes + test_file.len - RECORD;
        draw_digits(record + 3, 32);
        draw_bytes(record + 35, 13);
        draw_digits(record + 61, 10);
        draw_bytes(record + 71, 57);
    }
    old = one_in(4) ? 0 : one_in(3) ? debit - credit : (int64_t)below(1000);
    if (one_in(3))
        old -= (int64_t)draw_amount();
    size_t end = test_file.len;
    test_file.len = at;
    file_head(old, old - debit + credit, debit, credit);
    test_file.len = end;
    draw_digits(test_file.bytes + at + 3, 16);
    draw_bytes(test_file.bytes + at + 19, 26);
    draw_bytes(test_file.bytes + at + 105, 23);
}

static void draw_file(void)
{
    file_start();
    for (uint64_t statements = 1 + below(6); statements > 0; statements--)
        draw_statement();
}

/* ---- both calls, with guards ---- */

struct read_in {
    struct peer_statement_answer answer;
    uint8_t rows[MOST_ROWS * STATEMENT_ROW];
    bool guarded;
};

/* A refusal counts nothing, and its line is the record of its byte. */
static bool is_placed(const struct peer_statement_answer *a)
{
    return a->number >= 50 && a->number <= 53 && a->rows == 0 &&
           a->needed == 0 && a->line == a->byte / RECORD + 1 &&
           (a->number != 50) == (a->byte % RECORD != 0);
}

static void read_file(struct read_in *r, const uint8_t *file, size_t len)
{
    uint8_t *room = lend(sizeof r->rows), *copy = copy_of(file, len);
    r->answer = peer_statement_read(copy, len, room + GUARD, sizeof r->rows);
    size_t used = (size_t)r->answer.rows * STATEMENT_ROW;
    r->guarded = used <= sizeof r->rows && untouched(room, GUARD) &&
                 untouched(room + GUARD + used,
                           sizeof r->rows - used + GUARD);
    memcpy(r->rows, room + GUARD, sizeof r->rows);
    free(room);
    free(copy);
}

static struct lent spelled;

static bool write_rows(const uint8_t *rows, size_t len, struct peer_written *w)
{
    uint8_t *copy = copy_of(rows, len), *room = lend(sizeof spelled.bytes);
    *w = peer_statement_write(copy, len, room + GUARD, sizeof spelled.bytes);
    size_t used = w->number == 0 ? (size_t)w->bytes : 0;
    bool guarded = used <= sizeof spelled.bytes && untouched(room, GUARD) &&
                   untouched(room + GUARD + used,
                             sizeof spelled.bytes - used + GUARD);
    memcpy(spelled.bytes, room + GUARD, used);
    spelled.len = used;
    free(copy);
    free(room);
    return guarded;
}

/* ---- the tests ---- */

static struct read_in r, again;
static unsigned seen[54];

static void round_trip(void)
{
    struct peer_written w;
    draw_file();
    read_file(&r, test_file.bytes, test_file.len);
    CHECK("random: read", r.answer.number == 0 && r.guarded &&
                              r.answer.rows == test_file.len / RECORD);
    bool guarded = write_rows(r.rows, (size_t)r.answer.rows * STATEMENT_ROW,
                              &w);
    CHECK("random: written", w.number == 0 && guarded);
    CHECK("random: the same file",
          spelled.len == test_file.len &&
              memcmp(spelled.bytes, test_file.bytes, spelled.len) == 0);
}

static void damage(void)
{
    static const char some[] = "00123456789+-  \r\n\x1a\xff" "45";
    uint8_t *file = test_file.bytes;
    for (uint64_t times = 1 + below(3); times > 0; times--) {
        size_t at = (size_t)below(test_file.len);
        size_t record = at / RECORD * RECORD;
        switch (below(8)) {
        case 0:
            memmove(file + at, file + at + 1, test_file.len - at - 1);
            test_file.len--;
            break;
        case 1:
            memmove(file + at + 1, file + at, test_file.len - at);
            file[at] = (uint8_t)some[below(sizeof some - 1)];
            test_file.len++;
            break;
        case 2: /* a record less */
            if (test_file.len - record < 2 * RECORD)
                break;
            memmove(file + record, file + record + RECORD,
                    test_file.len - record - RECORD);
            test_file.len -= RECORD;
            break;
        case 3:
            file[record + (one_in(2) ? 2 : 60)] = (uint8_t)"1245"[below(4)];
            break;
        default:
            file[at] = (uint8_t)some[below(sizeof some - 1)];
        }
        if (test_file.len == 0)
            return;
    }
}

/* A damaged file is refused, or it is read, written and read alike. */
static void damaged_file(void)
{
    struct peer_written w;
    draw_file();
    damage();
    read_file(&r, test_file.bytes, test_file.len);
    CHECK("random: guards of reading", r.guarded);
    CHECK("random: a known number", r.answer.number == 0 ||
                                        is_placed(&r.answer));
    seen[r.answer.number % 54]++;
    if (r.answer.number != 0)
        return;
    size_t len = (size_t)r.answer.rows * STATEMENT_ROW;
    bool guarded = write_rows(r.rows, len, &w);
    CHECK("random: what is read can be written",
          w.number == 0 && guarded && w.bytes == test_file.len);
    read_file(&again, spelled.bytes, spelled.len);
    CHECK("random: read alike", again.answer.number == 0 &&
                                    again.answer.rows == r.answer.rows &&
                                    memcmp(again.rows, r.rows, len) == 0);
}

/* Are these the same rows, but for what is unused? */
static bool same_rows(const uint8_t *x, const uint8_t *y, size_t len)
{
    for (size_t i = 0; i < len; i++) {
        size_t row = i / STATEMENT_ROW * STATEMENT_ROW, at = i - row;
        bool head = x[row] == 74;
        bool unused = head ? (at >= 56 && at < 64) || at >= 113 : at >= 134;
        if (!unused && x[i] != y[i])
            return false;
    }
    return true;
}

/* Rows with wild words; whatever is written is read alike. */
static void damaged_rows(void)
{
    struct peer_written w;
    draw_file();
    file_read("random: rows", test_file.len / RECORD);
    for (uint64_t times = 1 + below(2); times > 0; times--) {
        uint64_t wild[] = {0, 1, 2, 4, 5, 74, 75, 999999, 1000000,
                           UINT64_C(1) << 63, UINT64_MAX, 0 - draw(), draw()};
        uint64_t row = 1 + below(test_rows.len / STATEMENT_ROW);
        row_set(row, (size_t)below(17), wild[below(13)]);
    }
    if (one_in(10))
        test_rows.len -= (size_t)below(test_rows.len);
    bool guarded = write_rows(test_rows.bytes, test_rows.len, &w);
    CHECK("random: guards of writing", guarded);
    CHECK("random: a known number of writing",
          w.number == 0 || (w.number >= 50 && w.number <= 53 && w.row >= 1 &&
                            w.field <= 7 && w.bytes == 0 &&
                            (w.number == 50) == (w.field == 0)));
    seen[w.number % 54]++;
    if (w.number != 0)
        return;
    read_file(&r, spelled.bytes, spelled.len);
    CHECK("random: what is written can be read",
          r.answer.number == 0 &&
              r.answer.rows * STATEMENT_ROW == test_rows.len &&
              same_rows(test_rows.bytes, r.rows, test_rows.len));
}

/* All that can be answered is met often enough to mean something. */
static void all_seen(void)
{
    static const unsigned numbers[] = {0, 50, 51, 52, 53};
    for (size_t i = 0; i < 5; i++) {
        CHECK("random: every number", seen[numbers[i]] > 30);
        seen[numbers[i]] = 0;
    }
}

void test_random_statements(void)
{
    for (int i = 0; i < 2000; i++)
        round_trip();
    for (int i = 0; i < 3000; i++)
        damaged_file();
    all_seen();
    for (int i = 0; i < 2000; i++)
        damaged_rows();
    all_seen();
}
