/*
 * Statements in the public header against the page that describes them: the
 * word, the bytes and the name of each field against docs/ROWS.md and against
 * where the library puts it, the answers against what the library gives, and
 * the header's own functions against the calls.  It is C99 and C++11 alike, and
 * host/api/header.sh builds it as both.
 *
 *   statement_rows docs/ROWS.md
 */
#include <abo.h>
#include "page.h"
#include "small_statement.h"

/* A constant's or a member's name as the page writes it. */
#define NAME_OF(name) "`" #name "`"

enum { HEAD_COLUMN = 1, MOVEMENT_COLUMN };

/* A number of a row: its column in the page, its constant, and where it lies. */
struct word {
    int column;
    const char *name;
    size_t number, at;
    int seen;
};

#define OF_HEAD(constant, member)                                             \
    {HEAD_COLUMN, NAME_OF(constant), constant,                                \
     offsetof(struct abo_statement_head, member), 0}
#define OF_MOVEMENT(constant, member)                                         \
    {MOVEMENT_COLUMN, NAME_OF(constant), constant,                            \
     offsetof(struct abo_statement_movement, member), 0}

static struct word words[] = {
    OF_HEAD(ABO_HEAD_PREFIX, account.prefix),
    OF_HEAD(ABO_HEAD_BASE, account.base),
    OF_HEAD(ABO_HEAD_OLD_BALANCE, old_balance),
    OF_HEAD(ABO_HEAD_NEW_BALANCE, new_balance),
    OF_HEAD(ABO_HEAD_DEBIT, debit),
    OF_HEAD(ABO_HEAD_CREDIT, credit),
    OF_MOVEMENT(ABO_MOVEMENT_PREFIX, account.prefix),
    OF_MOVEMENT(ABO_MOVEMENT_BASE, account.base),
    OF_MOVEMENT(ABO_MOVEMENT_OTHER_PREFIX, other.prefix),
    OF_MOVEMENT(ABO_MOVEMENT_OTHER_BASE, other.base),
    OF_MOVEMENT(ABO_MOVEMENT_AMOUNT, amount),
    OF_MOVEMENT(ABO_MOVEMENT_CODE, code),
    OF_MOVEMENT(ABO_MOVEMENT_VARIABLE, variable),
};

/* Kept bytes: their table in the page, their member, where it lies, and the
   row of the small statement that has one letter in all of them. */
struct kept {
    enum rows_table table;
    const char *name;
    size_t at, size, row;
    int seen;
};

#define KEPT(table, view, member, row)                                        \
    {table, NAME_OF(member), offsetof(struct view, member),                   \
     sizeof(((struct view *)0)->member), row, 0}
#define HEAD_KEPT(member) KEPT(HEAD_TABLE, abo_statement_head, member, 0)
#define MOVEMENT_KEPT(member)                                                 \
    KEPT(MOVEMENT_TABLE, abo_statement_movement, member, 1)

static struct kept kepts[] = {
    HEAD_KEPT(name),          HEAD_KEPT(old_day),      HEAD_KEPT(number),
    HEAD_KEPT(posted_day),    HEAD_KEPT(rest),         HEAD_KEPT(unused),
    MOVEMENT_KEPT(document),  MOVEMENT_KEPT(constant), MOVEMENT_KEPT(specific),
    MOVEMENT_KEPT(value_day), MOVEMENT_KEPT(text),     MOVEMENT_KEPT(change),
    MOVEMENT_KEPT(kind),      MOVEMENT_KEPT(due_day),  MOVEMENT_KEPT(unused),
};

/* The small statement, and its file as the library writes it. */
static union abo_statement_row small[SMALL_RECORDS];
static uint8_t file[SMALL_FILE];

static void write_small(void)
{
    make_small_statement(small);
    struct abo_written w =
        abo_statement_write_rows(small, SMALL_RECORDS, file, sizeof file);
    check(w.number == ABO_ACCEPTED && w.bytes == SMALL_FILE,
          "the small statement", "is written");
}

/* ---- the page ---- */

static void check_word(const char *cell, int column, size_t number)
{
    if (*cell == '\0') {
        check(column == HEAD_COLUMN && number * sizeof(uint64_t) ==
                  offsetof(struct abo_statement_head, unused_word),
              "a word without a name", "is the head's unused one");
        return;
    }
    for (size_t i = 0; i < COUNT_OF(words); i++)
        if (words[i].column == column && strstr(cell, words[i].name) != NULL) {
            check(words[i].number == number, cell, "has the word's number");
            check(words[i].at == number * sizeof(uint64_t), cell,
                  "lies at its word");
            check(words[i].seen++ == 0, cell, "stands once in the page");
            return;
        }
    check(0, cell, "has a name in the header");
}

/* The bytes of the record that the page names hold what the row's bytes do. */
static void check_place(const struct kept *k, const char *of_record)
{
    const uint8_t *row = (const uint8_t *)&small[k->row];
    size_t place = k->row * ABO_RECORD_BYTES + strtoul(of_record, NULL, 10);
    if (strcmp(k->name, NAME_OF(unused)) == 0) {
        check(*of_record == '\0', k->name, "is not in the record");
        return;
    }
    check(place + k->size <= sizeof file &&
              memcmp(row + k->at, file + place, k->size) == 0 &&
              row[k->at] == row[k->at + k->size - 1],
          k->name, "lies there in the record");
    check(k->size == 1 || (file[place - 1] != file[place] &&
                           file[place + k->size] != file[place]),
          k->name, "has no byte more in the record");
}

static size_t check_kept(enum rows_table table, char *cells[CELLS], size_t next)
{
    size_t at = strtoul(cells[0], NULL, 10);
    size_t size = strtoul(cells[2], NULL, 10);
    check(at == next, cells[3], "follows the bytes before");
    for (size_t i = 0; i < COUNT_OF(kepts); i++)
        if (kepts[i].table == table &&
            strstr(cells[3], kepts[i].name) != NULL) {
            check(kepts[i].at == at && kepts[i].size == size, cells[3],
                  "lies there and has as many bytes");
            check_place(&kepts[i], cells[1]);
            check(kepts[i].seen++ == 0, cells[3], "stands once in the page");
            return at + size;
        }
    check(0, cells[3], "has a name in the header");
    return at + size;
}

/* The heading: head (word 0 is 74, `ABO_STATEMENT_HEAD`). */
static void check_views(char *cells[CELLS])
{
    char says[80];
    snprintf(says, sizeof says, "head (word 0 is %d, `ABO_STATEMENT_HEAD`)",
             (int)ABO_STATEMENT_HEAD);
    check(strcmp(cells[HEAD_COLUMN], says) == 0, says, "heads its column");
    snprintf(says, sizeof says,
             "movement (word 0 is %d, `ABO_STATEMENT_MOVEMENT`)",
             (int)ABO_STATEMENT_MOVEMENT);
    check(strcmp(cells[MOVEMENT_COLUMN], says) == 0, says, "heads its column");
}

static void check_page(const char *path)
{
    enum rows_table table = NO_TABLE;
    char line[1024], *cells[CELLS];
    size_t next[MOVEMENT_TABLE + 1] = {0, 0, 0, 1, 64, 64};
    FILE *f = page(path);
    while (fgets(line, sizeof line, f) != NULL) {
        int count = cells_of(line, cells);
        table = table_of(table, cells, count);
        if (count > 0 && strcmp(cells[0], "statement word") == 0)
            check_views(cells);
        if (table < STATEMENT_TABLE || table > MOVEMENT_TABLE ||
            strspn(cells[0], "0123456789") == 0)
            continue;
        if (table == STATEMENT_TABLE) {
            check(strtoul(cells[0], NULL, 10) == next[table], cells[0],
                  "follows the word before");
            check_word(cells[HEAD_COLUMN], HEAD_COLUMN, next[table]);
            check_word(cells[MOVEMENT_COLUMN], MOVEMENT_COLUMN, next[table]++);
        } else {
            next[table] = check_kept(table, cells, next[table]);
        }
    }
    fclose(f);
    check(next[STATEMENT_TABLE] == ABO_STATEMENT_WORDS &&
              next[HEAD_TABLE] == ABO_STATEMENT_ROW_BYTES &&
              next[MOVEMENT_TABLE] == ABO_STATEMENT_ROW_BYTES,
          path, "names every word and byte of a row");
}

static void check_all_seen(void)
{
    for (size_t i = 0; i < COUNT_OF(words); i++)
        check(words[i].seen == 1, words[i].name, "stands in the page");
    for (size_t i = 0; i < COUNT_OF(kepts); i++)
        check(kepts[i].seen == 1, kepts[i].name, "stands in the page");
}

/* ---- the calls ---- */

static void check_answers(void)
{
    struct abo_statement_answer a = abo_statement_read(NULL, 0, NULL, 0);
    check(a.number == ABO_BAD_RECORD && a.line == 1 && a.byte == 0 &&
              a.rows == 0 && a.needed == 0,
          "an empty file", "lacks its first record");
    struct abo_written w = abo_statement_write(NULL, 0, NULL, 0);
    check(w.number == ABO_BAD_RECORD && w.row == 1 &&
              w.field == ABO_FIELD_ROW && w.bytes == 0,
          "no rows", "lack the first row");
    a = abo_statement_read(file, sizeof file, NULL, 0);
    check(a.number == ABO_NO_ROOM && a.line == 0 && a.byte == 0 &&
              a.rows == 0 && a.needed == SMALL_RECORDS,
          "reading without room", "says the rows needed");
    w = abo_statement_write_rows(small, SMALL_RECORDS, NULL, 0);
    check(w.number == ABO_NO_ROOM && w.row == 0 && w.field == 0 &&
              w.bytes == SMALL_FILE,
          "writing without room", "says the bytes needed");
}

/* abo_statement_read_rows is abo_statement_read of the same values: answer and
   rows, with what lies behind them. */
static void check_read_rows(size_t count, uint64_t due)
{
    union abo_statement_row rows[SMALL_RECORDS + 1], other[SMALL_RECORDS + 1];
    memset(rows, 7, sizeof rows);
    memset(other, 7, sizeof other);
    struct abo_statement_answer a =
        abo_statement_read_rows(file, sizeof file, rows, count);
    struct abo_statement_answer o =
        abo_statement_read(file, sizeof file, (uint8_t *)other,
                           count * ABO_STATEMENT_ROW_BYTES);
    check(o.number == due && memcmp(&a, &o, sizeof a) == 0,
          "abo_statement_read_rows", "answers as abo_statement_read does");
    check(memcmp(rows, other, sizeof rows) == 0, "abo_statement_read_rows",
          "fills the rows as abo_statement_read does");
    check(due != ABO_ACCEPTED || memcmp(rows, small, sizeof small) == 0,
          "what was written", "is read back");
}

static void check_write_rows(size_t room, uint64_t due)
{
    uint8_t out[SMALL_FILE + 1], other[SMALL_FILE + 1];
    memset(out, 7, sizeof out);
    memset(other, 7, sizeof other);
    struct abo_written w =
        abo_statement_write_rows(small, SMALL_RECORDS, out, room);
    struct abo_written o = abo_statement_write(
        (const uint8_t *)small, SMALL_RECORDS * ABO_STATEMENT_ROW_BYTES, other,
        room);
    check(o.number == due && memcmp(&w, &o, sizeof w) == 0,
          "abo_statement_write_rows", "answers as abo_statement_write does");
    check(memcmp(out, other, sizeof out) == 0, "abo_statement_write_rows",
          "writes what abo_statement_write writes");
}

int main(int argc, char **argv)
{
    if (argc != 2) {
        fprintf(stderr, "statement_rows: name docs/ROWS.md.\n");
        return 2;
    }
    write_small();
    check_page(argv[1]);
    check_all_seen();
    check_answers();
    check_read_rows(SMALL_RECORDS + 1, ABO_ACCEPTED);
    check_read_rows(SMALL_RECORDS - 1, ABO_NO_ROOM);
    check_write_rows(SMALL_FILE + 1, ABO_ACCEPTED);
    check_write_rows(SMALL_FILE - 1, ABO_NO_ROOM);
    small[0].head.credit++;
    check_write_rows(SMALL_FILE, ABO_BAD_TURNOVER);
    return last_line();
}
