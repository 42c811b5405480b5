/*
 * The words of include/abo_say.c for statements: each field of a row that
 * docs/ROWS.md names has a noun and what it may hold, and is what the library
 * refuses in writing; each place of a record has words exactly if docs/RULES.md
 * says that it is read, and each byte that is spoilt is refused by the library
 * where these words begin, or is kept.  C99 and C++11 alike; host/api/header.sh
 * builds it as both, over abo_say.c as C.
 *
 *   say_statement docs/ROWS.md docs/RULES.md
 */
#include "words.h"
#include "small_statement.h"

enum { KINDS = 2, TEXT_BYTES = ABO_RECORD_BYTES - 2 };

static const uint64_t kinds[KINDS] = {ABO_STATEMENT_HEAD,
                                      ABO_STATEMENT_MOVEMENT};

/* What no kind, field, code or place is. */
static const uint64_t odd[] = {8, 73, 76, 130, 1000, UINT32_MAX, UINT64_MAX};

/* ---- rows ---- */

static int in_page[KINDS][ABO_STATEMENT_WORDS];

static void learn_rows(const char *path)
{
    enum rows_table table = NO_TABLE;
    char line[1024], *cells[CELLS];
    FILE *f = page(path);
    while (fgets(line, sizeof line, f) != NULL) {
        int count = cells_of(line, cells);
        table = table_of(table, cells, count);
        if (table != STATEMENT_TABLE || strspn(cells[0], "0123456789") == 0)
            continue;
        unsigned long word = strtoul(cells[0], NULL, 10);
        for (int k = 0; k < KINDS && word < ABO_STATEMENT_WORDS; k++)
            in_page[k][word] = cells[k + 1][0] != '\0';
    }
    fclose(f);
}

static void check_word(uint64_t row, uint64_t field, int is_one)
{
    check_field(row, field, is_one);
    for (uint64_t sheet = 0; sheet <= ABO_SHEET_P; sheet++)
        check(abo_say_carried(sheet, row, field) == NULL, abo_say_row(row),
              "is the same on every sheet");
}

/* A word that no field can have is refused exactly where there is a field; the
   statement is the small one, whose kind `k` stands in row k. */
static void check_refused(int k, size_t word)
{
    union abo_statement_row rows[SMALL_RECORDS];
    uint8_t out[SMALL_FILE];
    make_small_statement(rows);
    rows[k].word[word] = UINT64_C(1) << 60;
    struct abo_written w =
        abo_statement_write_rows(rows, SMALL_RECORDS, out, sizeof out);
    check(in_page[k][word]
              ? w.number == ABO_BAD_VALUE && w.row == (uint64_t)k + 1 &&
                    w.field == word
              : w.number == ABO_ACCEPTED,
          abo_say_row(kinds[k]), "a word is refused exactly if it is a field");
}

static void check_rows(void)
{
    unsigned fields = 0;
    for (int k = 0; k < KINDS; k++) {
        check_word(kinds[k], 0, 0);
        for (size_t word = 1; word < ABO_STATEMENT_WORDS; word++) {
            check_word(kinds[k], word, in_page[k][word]);
            check_refused(k, word);
            fields += in_page[k][word] != 0;
        }
        for (size_t i = 0; i < COUNT_OF(odd); i++)
            check_word(kinds[k], odd[i], 0);
    }
    for (size_t i = 0; i < COUNT_OF(odd); i++)
        check_word(odd[i], 1, 0);
    check(fields == 6 + 7, "the page", "has as many fields of both rows");
    check(strcmp(abo_say_row(kinds[0]), "head of a statement") == 0 &&
              strcmp(abo_say_row(kinds[1]), "movement") == 0 &&
              strcmp(abo_say_row(73), "row of no known kind") == 0 &&
              strcmp(abo_say_row(76), "row of no known kind") == 0,
          "rows of statements", "are told, and no other");
}

/* ---- records ---- */

/* A row of the page's table of a record: place, bytes, what, read or not. */
static void check_place(int k, char *cells[CELLS], int covered[TEXT_BYTES])
{
    unsigned long place = strtoul(cells[0], NULL, 10);
    unsigned long width = strtoul(cells[1], NULL, 10);
    const struct abo_record_words *words = abo_say_record(kinds[k], place);
    int is_read = strcmp(cells[3], "read") == 0;
    if (!is_read) {
        check(words == NULL, cells[2], "has no words, as it is not read");
        return;
    }
    check(words != NULL && words->place == place && words->width == width,
          cells[2], "has words for as many bytes");
    check(words != NULL && is_clause(words->noun) && words->allowed != NULL &&
              words->allowed[0] != '\0',
          cells[2], "has its noun and what may stand there");
    for (size_t i = place; i < place + width && i < TEXT_BYTES; i++)
        covered[i] = (int)place;
}

/* The tables of docs/RULES.md begin with `074: place` and `075: place`. */
static void learn_records(const char *path, int covered[KINDS][TEXT_BYTES])
{
    static const char *const names[KINDS] = {"074: place", "075: place"};
    int table = -1, rows[KINDS] = {0, 0};
    char line[1024], *cells[CELLS];
    FILE *f = page(path);
    while (fgets(line, sizeof line, f) != NULL) {
        int count = cells_of(line, cells);
        if (count == 0)
            table = -1;
        for (int k = 0; k < KINDS && count > 0; k++)
            if (strcmp(cells[0], names[k]) == 0)
                table = k;
        if (table >= 0 && count == CELLS && isdigit((unsigned char)*cells[0]) &&
            strchr(cells[0], ':') == NULL) {
            check_place(table, cells, covered[table]);
            rows[table]++;
        }
    }
    fclose(f);
    check(rows[0] == 16 && rows[1] == 15, path, "has both tables of records");
}

/* Each byte spoilt by itself: refused at the field that it lies in, or kept. */
static void check_spoilt(const uint8_t *file, int covered[KINDS][TEXT_BYTES])
{
    union abo_statement_row rows[SMALL_RECORDS];
    uint8_t spoilt[SMALL_FILE];
    for (int k = 0; k < KINDS; k++)
        for (size_t i = 3; i < TEXT_BYTES; i++) {
            size_t start = (size_t)k * ABO_RECORD_BYTES;
            memcpy(spoilt, file, SMALL_FILE);
            spoilt[start + i] = 'x';
            struct abo_statement_answer a = abo_statement_read_rows(
                spoilt, SMALL_FILE, rows, SMALL_RECORDS);
            check(covered[k][i] != 0
                      ? a.number == ABO_BAD_VALUE && a.line == (uint64_t)k + 1 &&
                            a.byte == start + (size_t)covered[k][i]
                      : a.number == ABO_ACCEPTED,
                  abo_say_row(kinds[k]),
                  "a spoilt byte is refused where its words begin, or kept");
        }
}

static void check_records(const char *path)
{
    static int covered[KINDS][TEXT_BYTES];
    union abo_statement_row rows[SMALL_RECORDS];
    uint8_t file[SMALL_FILE];
    make_small_statement(rows);
    struct abo_written w =
        abo_statement_write_rows(rows, SMALL_RECORDS, file, sizeof file);
    check(w.number == ABO_ACCEPTED, "the small statement", "is written");
    learn_records(path, covered);
    check_spoilt(file, covered);
    for (uint64_t place = 0; place < ABO_RECORD_BYTES; place++)
        for (int k = 0; k < KINDS; k++)
            check((abo_say_record(kinds[k], place) != NULL) ==
                      (place < TEXT_BYTES &&
                       (uint64_t)covered[k][place] == place && place > 0),
                  "a place of a record", "has words if a read field begins");
    for (size_t i = 0; i < COUNT_OF(odd); i++)
        check(abo_say_record(odd[i], 3) == NULL &&
                  abo_say_record(ABO_STATEMENT_HEAD, odd[i]) == NULL,
              "a place that is none", "has no words");
}

static void check_codes(void)
{
    static const char *const names[] = {NULL,   "debit",          "credit",
                                        NULL,   "reversed debit", "reversed credit",
                                        NULL};
    for (size_t i = 0; i < COUNT_OF(names); i++) {
        const char *said = abo_say_code(i);
        check(names[i] == NULL ? said == NULL
                               : said != NULL && strcmp(said, names[i]) == 0,
              "a code", "has its name, or none");
    }
    check(abo_say_code(UINT64_MAX) == NULL, "a code that is none",
          "has no name");
}

int main(int argc, char **argv)
{
    if (argc != 3) {
        fprintf(stderr, "say_statement: name docs/ROWS.md and docs/RULES.md.\n");
        return 2;
    }
    learn_rows(argv[1]);
    check_rows();
    check_records(argv[2]);
    check_codes();
    return last_line();
}
