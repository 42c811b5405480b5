/*
 * The words of include/abo_say.c: every number of the header has a text and its
 * name; every field that docs/ROWS.md names has a noun and what it may hold,
 * and nothing else has; each field that the library refuses on a sheet alone
 * has words for what that sheet carries, and no other; every sheet has its
 * letter, its bank and the code that the library writes.  say_statement.c has
 * the words of statements.  C99 and C++11 alike; host/api/header.sh builds it as
 * both, over abo_say.c as C.
 *
 *   say include/abo.h docs/ROWS.md
 */
#include "words.h"
#include "small_batch.h"

enum { KINDS = ABO_ROW_ITEM + 1, SHEETS = ABO_SHEET_P, S_ITEMS = 1000 };
enum { TODAY = 20180101, ROOM = 1024, LONG = 36 };

/* What no number, row, field, kind or sheet is. */
static const uint64_t odd[] = {40, 1000, 1505, UINT32_MAX, UINT64_MAX};

/* ---- numbers ---- */

static void check_number(const char *name, unsigned number, const char *none)
{
    const char *constant = abo_say_constant(number);
    check(constant != NULL && strcmp(constant, name) == 0, name,
          "is the constant's name");
    check(is_clause(abo_say_number(number)), name, "has a clause");
    check(strcmp(abo_say_number(number), none) != 0, name,
          "has words of its own");
}

/* Each line of enum abo_number, as `ABO_BAD_FIELD = 4,`. */
static void check_numbers(const char *header)
{
    const char *none = abo_say_number(UINT64_MAX);
    char line[1024], name[64];
    unsigned number, count = 0, next = 0;
    int inside = 0;
    FILE *f = page(header);
    while (fgets(line, sizeof line, f) != NULL) {
        if (strncmp(line, "enum abo_number {", 17) == 0)
            inside = 1;
        if (inside && line[0] == '}')
            break;
        if (inside &&
            sscanf(line, " %63[A-Z_] = %u", name, &number) == 2) {
            check_number(name, number, none);
            count++;
            for (; next < number; next++)
                check(abo_say_constant(next) == NULL, name,
                      "no number before it has a name that abo.h lacks");
            next = number + 1;
        }
    }
    fclose(f);
    check(count > 0 && next == ABO_BAD_BALANCE + 1, header,
          "has the numbers up to the last");
    check(is_clause(none), "a number that is none", "has a clause, too");
    for (size_t i = 0; i < COUNT_OF(odd); i++)
        check(abo_say_constant(odd[i]) == NULL &&
                  strcmp(abo_say_number(odd[i]), none) == 0,
              "a number that is none", "has no name");
}

/* ---- fields ---- */

/* Which fields there are, by the row's kind (0 is the header) and number. */
static int in_page[KINDS][ABO_ROW_WORDS];

/* An account is a field by its prefix, and its base is the same field. */
static void learn_page(const char *path)
{
    enum rows_table table = NO_TABLE;
    char line[1024], *cells[CELLS];
    FILE *f = page(path);
    while (fgets(line, sizeof line, f) != NULL) {
        int count = cells_of(line, cells);
        table = table_of(table, cells, count);
        if (table == NO_TABLE || strspn(cells[0], "0123456789") == 0)
            continue;
        unsigned long field = strtoul(cells[0], NULL, 10);
        if (field >= ABO_ROW_WORDS)
            continue;
        if (table == HEADER_TABLE)
            in_page[0][field] = 1;
        for (int i = 1; table == ROWS_TABLE && i < count && i < KINDS; i++)
            in_page[i][field] =
                cells[i][0] != '\0' && strstr(cells[i], "'s base") == NULL;
    }
    fclose(f);
}

static void check_fields(void)
{
    unsigned fields = 0;
    for (uint64_t row = 0; row < KINDS; row++) {
        for (uint64_t field = 0; field < ABO_ROW_WORDS; field++) {
            check_field(row, field, in_page[row][field]);
            fields += in_page[row][field] != 0;
        }
        for (size_t i = 0; i < COUNT_OF(odd); i++)
            check_field(row, odd[i], 0);
    }
    for (size_t i = 0; i < COUNT_OF(odd); i++)
        check_field(odd[i], ABO_FILE_KIND, 0);
    check_field(KINDS, ABO_FILE_KIND, 0);
    /* of the header, an account file, a group and an item */
    check(fields == 5 + 2 + 2 + 14, "the page", "has as many fields");
}

/* ---- what the library refuses has words ---- */

/* Bytes that texts lie in: `Wage`, with a name, with a bar, with a mark, and too
   many. */
static const char texts[] =
    "Wage NP:Jan|#~xxxxxxxxxxxxxxxxxxxxxxxxxxxxxxxxxxxx";
enum { WITH_NAME = 11, WITH_BAR = 12, HASH = 12, TILDE = 13, FILLED = 14 };

/* One word of a batch changed, and for a text the next one too. */
struct change {
    uint64_t row, word, value, next;
};
#define KEEP UINT64_MAX
#define TEN_DIGITS UINT64_C(10000000000)
#define TWELVE_DIGITS UINT64_C(1000000000000)
#define FOURTEEN_DIGITS UINT64_C(100000000000000)
#define OF_HEADER(word, value) {0, word, value, KEEP}
#define OF_FILE(word, value) {ABO_ROW_FILE, word, value, KEEP}
#define OF_GROUP(word, value) {ABO_ROW_GROUP, word, value, KEEP}
#define OF_ITEM(word, value) {ABO_ROW_ITEM, word, value, KEEP}
#define OF_TEXT(word, place, length) {ABO_ROW_ITEM, word, place, length}
#define OF_PART(word)                                                         \
    OF_TEXT(word, 0, SMALL_TEXT), OF_TEXT(word, 0, WITH_NAME),                \
        OF_TEXT(word, 0, WITH_BAR), OF_TEXT(word, FILLED, LONG),              \
        OF_TEXT(word, HASH, 1), OF_TEXT(word, TILDE, 1)

static const struct change changes[] = {
    OF_HEADER(ABO_HEADER_DATE, 20180230),
    OF_HEADER(ABO_HEADER_NAME, 0),
    OF_HEADER(ABO_HEADER_CLIENT, TEN_DIGITS),
    OF_HEADER(ABO_HEADER_FROM, 1000),
    OF_HEADER(ABO_HEADER_TO, 1000),
    OF_HEADER(ABO_HEADER_TO, 0),
    OF_FILE(ABO_FILE_KIND, 1500),
    OF_FILE(ABO_FILE_KIND, 1502),
    OF_FILE(ABO_FILE_KIND, 1503),
    OF_FILE(ABO_FILE_KIND, 1504),
    OF_FILE(ABO_FILE_NUMBER, 0),
    OF_FILE(ABO_FILE_NUMBER, 1000000),
    OF_GROUP(ABO_GROUP_DUE, 20180230),
    OF_GROUP(ABO_GROUP_DUE, 20171231),
    OF_GROUP(ABO_GROUP_DUE, 20190101),
    OF_GROUP(ABO_GROUP_DUE, 20190102),
    OF_GROUP(ABO_GROUP_DUE, 20991231),
    OF_GROUP(ABO_GROUP_PAYER, 1),
    OF_ITEM(ABO_ITEM_PAYER, 19),
    OF_ITEM(ABO_ITEM_PAYEE, 1),
    OF_ITEM(ABO_ITEM_BANK, 0),
    OF_ITEM(ABO_ITEM_AMOUNT, 0),
    OF_ITEM(ABO_ITEM_AMOUNT, TWELVE_DIGITS),
    OF_ITEM(ABO_ITEM_AMOUNT, FOURTEEN_DIGITS),
    OF_ITEM(ABO_ITEM_VARIABLE, TEN_DIGITS),
    OF_ITEM(ABO_ITEM_SPECIFIC, TEN_DIGITS),
    OF_ITEM(ABO_ITEM_CONSTANT, 10000),
    OF_ITEM(ABO_ITEM_PRIORITY, 2),
    OF_ITEM(ABO_ITEM_PRIORITY, 3),
    OF_PART(ABO_ITEM_PART_1),
    OF_PART(ABO_ITEM_PART_2),
    OF_PART(ABO_ITEM_PART_3),
    OF_PART(ABO_ITEM_PART_4),
    OF_PART(ABO_ITEM_NAME),
    OF_ITEM(ABO_ITEM_REFERENCE, UINT64_C(4294967296)),
};

/* Where the library refused with ABO_NOT_A_BATCH, and on which sheet with
   ABO_NOT_CARRIED, by the row's kind and the field. */
static int not_a_batch[KINDS][ABO_ROW_WORDS];
static int not_carried[SHEETS + 1][KINDS][ABO_ROW_WORDS];

static void set_header(struct abo_header *header, const struct change *c)
{
    switch (c->word) {
    case ABO_HEADER_DATE: header->date = c->value; break;
    case ABO_HEADER_NAME: header->name[0] = (uint8_t)c->value; break;
    case ABO_HEADER_CLIENT: header->client = c->value; break;
    case ABO_HEADER_FROM: header->from = c->value; break;
    default: header->to = c->value; break;
    }
}

static struct abo_written written(const union abo_row *rows, size_t count,
                                  const struct abo_header *header,
                                  uint64_t sheet, uint8_t *out, size_t room)
{
    struct abo_written w =
        abo_write_rows(rows, count, (const uint8_t *)texts, sizeof texts - 1,
                       header, sheet, TODAY, out, room);
    uint64_t kind = w.row == 0 ? 0 : rows[w.row - 1].word[ABO_FIELD_ROW];
    if (w.number == ABO_NOT_A_BATCH)
        not_a_batch[kind][w.field] = 1;
    if (w.number == ABO_NOT_CARRIED)
        not_carried[sheet][kind][w.field] = 1;
    return w;
}

/* Every change of a batch on every sheet. */
static void try_changes(void)
{
    union abo_row rows[SMALL_ROWS];
    struct abo_header header;
    uint8_t out[ROOM];
    for (size_t i = 0; i < COUNT_OF(changes); i++) {
        const struct change *c = &changes[i];
        make_small_batch(rows, &header, TODAY);
        if (c->row == 0) {
            set_header(&header, c);
        } else {
            rows[c->row - 1].word[c->word] = c->value;
            if (c->next != KEEP)
                rows[c->row - 1].word[c->word + 1] = c->next;
        }
        for (uint64_t sheet = 1; sheet <= SHEETS; sheet++)
            written(rows, SMALL_ROWS, &header, sheet, out, sizeof out);
    }
}

/* One item more than S takes. */
static void try_many(void)
{
    static union abo_row rows[2 + S_ITEMS + 1];
    struct abo_header header;
    make_small_batch(rows, &header, TODAY);
    for (size_t i = SMALL_ROWS; i < COUNT_OF(rows); i++)
        rows[i] = rows[SMALL_ROWS - 1];
    for (uint64_t sheet = 1; sheet <= SHEETS; sheet++)
        written(rows, COUNT_OF(rows), &header, sheet, NULL, 0);
}

static void check_refused(void)
{
    char what[64];
    for (uint64_t row = 0; row < KINDS; row++)
        for (uint64_t field = 0; field < ABO_ROW_WORDS; field++) {
            snprintf(what, sizeof what, "row %u, field %u", (unsigned)row,
                     (unsigned)field);
            check(not_a_batch[row][field] == in_page[row][field], what,
                  "is refused on every sheet exactly if it is a field");
            if (!in_page[row][field] && field != ABO_FIELD_ROW)
                continue;
            for (uint64_t sheet = 1; sheet <= SHEETS; sheet++) {
                const char *says = abo_say_carried(sheet, row, field);
                check(not_carried[sheet][row][field] ? is_clause(says)
                                                     : says == NULL,
                      what,
                      "has words for what the sheet carries exactly if the "
                      "library refuses it there");
            }
            check(abo_say_carried(0, row, field) == NULL &&
                      abo_say_carried(SHEETS + 1, row, field) == NULL &&
                      abo_say_carried(UINT64_MAX, row, field) == NULL,
                  what, "has no words on a sheet that is none");
        }
}

/* ---- sheets, rows and kinds ---- */

/* The letter, and the bank's code as the library writes it. */
static void check_sheets(void)
{
    static const char letters[] = "KSCEP";
    union abo_row rows[SMALL_ROWS];
    struct abo_header header;
    uint8_t out[ROOM];
    make_small_batch(rows, &header, TODAY);
    for (uint64_t sheet = 1; sheet <= SHEETS; sheet++) {
        const struct abo_sheet_words *words = abo_say_sheet(sheet);
        char letter[] = {letters[sheet - 1], '\0'};
        struct abo_written w =
            written(rows, SMALL_ROWS, &header, sheet, out, sizeof out);
        struct abo_found line = abo_line(out, (size_t)w.bytes, 2);
        check(w.number == ABO_ACCEPTED && line.found == 1 && line.len > 4,
              letter, "a batch is written");
        check(words != NULL && words->letter == letter[0], letter,
              "has its letter");
        check(words != NULL && strlen(words->code) == 4 &&
                  memcmp(words->code, out + line.at + line.len - 4, 4) == 0,
              letter, "has the code that the library writes");
        check(words != NULL && strlen(words->bank) > 3, letter,
              "has its bank's name");
    }
    check(abo_say_sheet(0) == NULL && abo_say_sheet(SHEETS + 1) == NULL &&
              abo_say_sheet(UINT64_MAX) == NULL,
          "a sheet that is none", "has no words");
}

static void check_rows_and_kinds(void)
{
    static const char *const rows[] = {"header", "account file", "group",
                                       "item"};
    static const char *const items[] = {"items", "payments", "collections",
                                        "priority payments",
                                        "instant payments", "items"};
    for (size_t i = 0; i < COUNT_OF(rows); i++)
        check(strcmp(abo_say_row(i), rows[i]) == 0, rows[i], "is a row");
    for (size_t i = 0; i < COUNT_OF(items); i++)
        check(strcmp(abo_say_items(1500 + i), items[i]) == 0, items[i],
              "are what a kind holds");
    for (size_t i = 0; i < COUNT_OF(odd); i++) {
        check(strcmp(abo_say_row(odd[i]), "row of no known kind") == 0,
              "a row of no known kind", "is told as one");
        check(strcmp(abo_say_items(odd[i]), "items") == 0,
              "a kind that is none", "holds items");
    }
    check(strcmp(abo_say_items(0), "items") == 0, "the kind 0",
          "holds items");
}

int main(int argc, char **argv)
{
    if (argc != 3) {
        fprintf(stderr, "say: name include/abo.h and docs/ROWS.md.\n");
        return 2;
    }
    check_numbers(argv[1]);
    learn_page(argv[2]);
    check_fields();
    try_changes();
    try_many();
    check_refused();
    check_sheets();
    check_rows_and_kinds();
    return last_line();
}
