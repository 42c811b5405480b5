/*
 * The public header against the pages that describe it: the word and the name
 * of each field against docs/ROWS.md, the numbers returned and their names
 * against docs/NUMBERS.md, the answers against what the library gives, and the
 * header's own functions against the calls.  statement_rows.c has the same for
 * statements, register_calls.c for the register of a day's numbers.  It is C99
 * and C++11 alike, and host/api/header.sh builds it as both.
 *
 *   header docs/ROWS.md docs/NUMBERS.md
 */
#include <abo.h>
#include "page.h"
#include "small_batch.h"

enum { WORD = sizeof(uint64_t) };
enum { FILE_COLUMN = 1, GROUP_COLUMN, ITEM_COLUMN };

/* A constant's name as the pages write it. */
#define NAME_OF(constant) "`" #constant "`"

/* A field: its column in the page and the words it has there, where it lies,
   and the constant that the header gives it, by its name and its number. */
struct named {
    int column;
    const char *words;
    size_t at, size;
    const char *name;
    unsigned number;
    int seen;
};

#define FIELD(column, words, view, member, name, number)                      \
    {column, words, offsetof(struct view, member),                            \
     sizeof(((struct view *)0)->member), name, number, 0}
#define OF_FILE(words, member, constant)                                      \
    FIELD(FILE_COLUMN, words, abo_file_row, member, NAME_OF(constant),        \
          constant)
#define OF_GROUP(words, member, constant)                                     \
    FIELD(GROUP_COLUMN, words, abo_group_row, member, NAME_OF(constant),      \
          constant)
#define OF_ITEM(words, member, constant)                                      \
    FIELD(ITEM_COLUMN, words, abo_item_row, member, NAME_OF(constant),        \
          constant)

static struct named fields[] = {
    OF_FILE("kind", kind, ABO_FILE_KIND),
    OF_FILE("number", number, ABO_FILE_NUMBER),
    OF_GROUP("due date", due, ABO_GROUP_DUE),
    OF_GROUP("payer's prefix", payer.prefix, ABO_GROUP_PAYER_PREFIX),
    OF_GROUP("payer's base", payer.base, ABO_GROUP_PAYER_BASE),
    OF_ITEM("payer's prefix", payer.prefix, ABO_ITEM_PAYER_PREFIX),
    OF_ITEM("payer's base", payer.base, ABO_ITEM_PAYER_BASE),
    OF_ITEM("payee's prefix", payee.prefix, ABO_ITEM_PAYEE_PREFIX),
    OF_ITEM("payee's base", payee.base, ABO_ITEM_PAYEE_BASE),
    OF_ITEM("payee's bank", bank, ABO_ITEM_BANK),
    OF_ITEM("amount", amount, ABO_ITEM_AMOUNT),
    OF_ITEM("variable symbol", variable, ABO_ITEM_VARIABLE),
    OF_ITEM("specific symbol", specific, ABO_ITEM_SPECIFIC),
    OF_ITEM("constant symbol", constant, ABO_ITEM_CONSTANT),
    OF_ITEM("priority", priority, ABO_ITEM_PRIORITY),
    OF_ITEM("message part 1", part[0], ABO_ITEM_PART_1),
    OF_ITEM("message part 2", part[1], ABO_ITEM_PART_2),
    OF_ITEM("message part 3", part[2], ABO_ITEM_PART_3),
    OF_ITEM("message part 4", part[3], ABO_ITEM_PART_4),
    OF_ITEM("name", name, ABO_ITEM_NAME),
    OF_ITEM("reference", reference, ABO_ITEM_REFERENCE),
};

static const size_t first_unused[] = {
    0,
    offsetof(struct abo_file_row, unused),
    offsetof(struct abo_group_row, unused),
    offsetof(struct abo_item_row, unused),
};

/* The three views, the header's fields and the numbers returned: words of the
   page, and the constant that goes with them, by its name and its number. */
struct numbered {
    const char *words, *name;
    unsigned number;
    int seen;
};

#define NUMBERED(words, constant) {words, NAME_OF(constant), constant, 0}
#define RETURNED(constant) NUMBERED(NAME_OF(constant), constant)

static struct numbered views[] = {
    NUMBERED("account file", ABO_ROW_FILE),
    NUMBERED("group", ABO_ROW_GROUP),
    NUMBERED("item", ABO_ROW_ITEM),
};

static struct numbered header_fields[] = {
    NUMBERED("creation date", ABO_HEADER_DATE),
    NUMBERED("name", ABO_HEADER_NAME),
    NUMBERED("client number", ABO_HEADER_CLIENT),
    NUMBERED("interval start", ABO_HEADER_FROM),
    NUMBERED("interval end", ABO_HEADER_TO),
};

static struct numbered numbers[] = {
    RETURNED(ABO_ACCEPTED),       RETURNED(ABO_BAD_SHEET),
    RETURNED(ABO_BAD_TODAY),      RETURNED(ABO_BAD_ORDER),
    RETURNED(ABO_BAD_FIELD),      RETURNED(ABO_BAD_ACCOUNT),
    RETURNED(ABO_BAD_AMOUNT),     RETURNED(ABO_BAD_KIND),
    RETURNED(ABO_BAD_PAYER_BANK), RETURNED(ABO_BAD_NUMBER),
    RETURNED(ABO_BAD_TOTAL),      RETURNED(ABO_BAD_DAY),
    RETURNED(ABO_BAD_PAYEE_BANK), RETURNED(ABO_BAD_DIGIT),
    RETURNED(ABO_BAD_TEXT),       RETURNED(ABO_TOO_MANY),
    RETURNED(ABO_NO_ROOM),        RETURNED(ABO_NOT_A_BATCH),
    RETURNED(ABO_NOT_CARRIED),    RETURNED(ABO_NUMBER_USED),
    RETURNED(ABO_BAD_REGISTER),   RETURNED(ABO_NOT_TAKEN),
    RETURNED(ABO_BAD_RECORD),     RETURNED(ABO_BAD_VALUE),
    RETURNED(ABO_BAD_TURNOVER),   RETURNED(ABO_BAD_BALANCE),
};

static struct numbered causes[] = {
    RETURNED(ABO_CAUSE_DUE_FIRST),        RETURNED(ABO_CAUSE_DUE_FILE),
    RETURNED(ABO_CAUSE_DUE_GROUP),        RETURNED(ABO_CAUSE_DUE_ITEM),
    RETURNED(ABO_CAUSE_DUE_ITEM_OR_END),  RETURNED(ABO_CAUSE_DUE_GROUP_OR_END),
    RETURNED(ABO_CAUSE_DUE_FILE_OR_END),  RETURNED(ABO_CAUSE_SPELLING),
    RETURNED(ABO_CAUSE_DIVIDER_MISSING),  RETURNED(ABO_CAUSE_DIVIDER_MORE),
    RETURNED(ABO_CAUSE_CLOSING),          RETURNED(ABO_CAUSE_PREFIX_SUM),
    RETURNED(ABO_CAUSE_BASE_SUM),         RETURNED(ABO_CAUSE_BASE_ZEROS),
    RETURNED(ABO_CAUSE_AMOUNT_ZERO),      RETURNED(ABO_CAUSE_AMOUNT_OVER),
    RETURNED(ABO_CAUSE_KIND),             RETURNED(ABO_CAUSE_PAYER_BANK),
    RETURNED(ABO_CAUSE_INTERVAL_TURNED),  RETURNED(ABO_CAUSE_NUMBER_OUTSIDE),
    RETURNED(ABO_CAUSE_NUMBER_USED),      RETURNED(ABO_CAUSE_TOTAL_DIFFERS),
    RETURNED(ABO_CAUSE_SUM_OVER),         RETURNED(ABO_CAUSE_DAY_NOT_REAL),
    RETURNED(ABO_CAUSE_DAY_EARLY),        RETURNED(ABO_CAUSE_DAY_LATE),
    RETURNED(ABO_CAUSE_COLLECTION_EARLY), RETURNED(ABO_CAUSE_COLLECTION_LATE),
    RETURNED(ABO_CAUSE_PAYEE_BANK),       RETURNED(ABO_CAUSE_NINTH_DIGIT),
    RETURNED(ABO_CAUSE_TENTH_DIGIT),      RETURNED(ABO_CAUSE_TEXT_START),
    RETURNED(ABO_CAUSE_TEXT_PARTS),       RETURNED(ABO_CAUSE_TEXT_LENGTH),
    RETURNED(ABO_CAUSE_TEXT_BAR),         RETURNED(ABO_CAUSE_TEXT_MARKS),
    RETURNED(ABO_CAUSE_MANY_FILES),       RETURNED(ABO_CAUSE_MANY_FILE_ITEMS),
    RETURNED(ABO_CAUSE_MANY_ITEMS),       RETURNED(ABO_CAUSE_NUMBER_TAKEN),
    RETURNED(ABO_CAUSE_REGISTER_MALFORMED),
    RETURNED(ABO_CAUSE_REGISTER_DATE),    RETURNED(ABO_CAUSE_WARNED_TOTAL),
    RETURNED(ABO_CAUSE_WARNED_PAST),      RETURNED(ABO_CAUSE_WARNED_PART),
    RETURNED(ABO_CAUSE_WARNED_NAME),      RETURNED(ABO_CAUSE_WARNED_PRIORITY),
};

static struct numbered found_fields[] = {
    RETURNED(ABO_FOUND_LINE),       RETURNED(ABO_FOUND_DATE),
    RETURNED(ABO_FOUND_FIRM),       RETURNED(ABO_FOUND_CLIENT),
    RETURNED(ABO_FOUND_FROM),       RETURNED(ABO_FOUND_TO),
    RETURNED(ABO_FOUND_REST),       RETURNED(ABO_FOUND_KIND),
    RETURNED(ABO_FOUND_NUMBER),     RETURNED(ABO_FOUND_PAYER_BANK),
    RETURNED(ABO_FOUND_GROUP_PAYER), RETURNED(ABO_FOUND_TOTAL),
    RETURNED(ABO_FOUND_DUE),        RETURNED(ABO_FOUND_PAYER),
    RETURNED(ABO_FOUND_PAYEE),      RETURNED(ABO_FOUND_AMOUNT),
    RETURNED(ABO_FOUND_VARIABLE),   RETURNED(ABO_FOUND_BANK),
    RETURNED(ABO_FOUND_SPECIFIC),   RETURNED(ABO_FOUND_TEXT),
    RETURNED(ABO_FOUND_PART_1),     RETURNED(ABO_FOUND_PART_2),
    RETURNED(ABO_FOUND_PART_3),     RETURNED(ABO_FOUND_PART_4),
    RETURNED(ABO_FOUND_NAME),       RETURNED(ABO_FOUND_GROUP_END),
    RETURNED(ABO_FOUND_FILE_END),
};

/* Words of a finding: the member that the page names, by its offset. */
#define MEMBER(member)                                                        \
    {NULL, "`" #member "`",                                                   \
     (unsigned)(offsetof(struct abo_finding, member) / WORD), 0}

static struct numbered finding_words[] = {
    MEMBER(number), MEMBER(cause), MEMBER(line),  MEMBER(byte),
    MEMBER(length), MEMBER(field), MEMBER(least), MEMBER(most),
};

/* Do these words begin the cell, and end where one of its words does? */
static int begins(const char *cell, const char *words)
{
    size_t len = strlen(words);
    return strncmp(cell, words, len) == 0 && strchr(" ,:", cell[len]) != NULL;
}

/* The first and last word that `7`, `11, 12` or `11 to 20` names. */
static size_t words_of(const char *cell, size_t *last)
{
    char *end;
    size_t first = strtoul(cell, &end, 10);
    end += strcspn(end, "0123456789");
    *last = *end == '\0' ? first : strtoul(end, NULL, 10);
    return first;
}

/* A cell of the table of rows: a field that lies there, or words unused. */
static void check_field(const char *cell, int column, size_t first, size_t last)
{
    size_t at = first * WORD, size = (last - first + 1) * WORD;
    if (*cell == '\0') {
        check(at >= first_unused[column], "words without a name", "are unused");
        return;
    }
    for (size_t i = 0; i < COUNT_OF(fields); i++)
        if (fields[i].column == column && begins(cell, fields[i].words)) {
            check(fields[i].at == at, cell, "lies at its word");
            check(fields[i].size == size, cell, "has as many words");
            check(fields[i].number == first, cell, "has the word's number");
            check(strstr(cell, fields[i].name) != NULL, cell,
                  "has the constant's name");
            check(fields[i].seen++ == 0, cell, "stands once in the page");
            return;
        }
    check(0, cell, "has a name in the header");
}

/* The cell is about one of these, which has this number and names it so. */
static void check_numbered(struct numbered *list, size_t count,
                           const char *cell, const char *number)
{
    for (size_t i = 0; i < count; i++)
        if (begins(cell, list[i].words)) {
            check(strtoul(number, NULL, 10) == list[i].number, cell,
                  "has this number in the header");
            check(strstr(cell, list[i].name) != NULL, cell,
                  "has the constant's name");
            check(list[i].seen++ == 0, cell, "stands once in the page");
            return;
        }
    check(0, cell, "has a name in the header");
}

/* The word of a finding that this cell is about is the member it names last. */
static void check_finding_word(const char *cell, const char *number)
{
    unsigned long word = strtoul(number, NULL, 10);
    size_t len = strlen(cell);
    for (size_t i = 0; i < COUNT_OF(finding_words); i++) {
        size_t name = strlen(finding_words[i].name);
        if (finding_words[i].number != word)
            continue;
        check(len > name &&
                  strcmp(cell + len - name, finding_words[i].name) == 0,
              cell, "is the member of that word");
        check(finding_words[i].seen++ == 0, cell, "stands once in the page");
        return;
    }
    check(0, cell, "is a word of a finding");
}

/* The heading of the table of rows: item (word 0 is 3, `ABO_ROW_ITEM`). */
static void check_views(char *cells[CELLS], int count)
{
    static const char says[] = "(word 0 is ";
    for (int i = 1; i < count; i++) {
        const char *number = strstr(cells[i], says);
        check(number != NULL, cells[i], "says what word 0 is");
        if (number != NULL)
            check_numbered(views, COUNT_OF(views), cells[i],
                           number + sizeof says - 1);
    }
}

/* Words follow each other without a gap; gives back the next one. */
static size_t check_row(char *cells[CELLS], int count, size_t next)
{
    size_t last, first = words_of(cells[0], &last);
    check(first == next, cells[0], "follows the word before");
    for (int i = 1; i < count; i++)
        check_field(cells[i], i, first, last);
    return last + 1;
}

static void check_rows_page(const char *path)
{
    enum rows_table table = NO_TABLE;
    char line[1024], *cells[CELLS];
    size_t next = 1;
    FILE *f = page(path);
    while (fgets(line, sizeof line, f) != NULL) {
        int count = cells_of(line, cells);
        table = table_of(table, cells, count);
        if (count > 0 && strcmp(cells[0], "word") == 0)
            check_views(cells, count);
        else if (table == NO_TABLE || strspn(cells[0], "0123456789") == 0)
            continue;
        else if (table == ROWS_TABLE)
            next = check_row(cells, count, next);
        else if (table == HEADER_TABLE)
            check_numbered(header_fields, COUNT_OF(header_fields), cells[1],
                           cells[0]);
        else if (table == FINDING_TABLE)
            check_finding_word(cells[1], cells[0]);
    }
    fclose(f);
    check(next == ABO_ROW_WORDS, path, "names every word of a row");
}

static void check_numbers_page(const char *path)
{
    enum rows_table table = NO_TABLE;
    char line[1024], *cells[CELLS];
    FILE *f = page(path);
    while (fgets(line, sizeof line, f) != NULL) {
        int count = cells_of(line, cells);
        table = table_of(table, cells, count);
        if (count < 2 || strspn(cells[0], "0123456789") == 0)
            continue;
        else if (table == NUMBER_TABLE)
            check_numbered(numbers, COUNT_OF(numbers), cells[1], cells[0]);
        else if (table == CAUSE_TABLE)
            check_numbered(causes, COUNT_OF(causes), cells[1], cells[0]);
        else if (table == FOUND_TABLE)
            check_numbered(found_fields, COUNT_OF(found_fields), cells[1],
                           cells[0]);
        else
            check(0, cells[1], "stands in a table that is known");
    }
    fclose(f);
}

static void check_all_seen(const struct numbered *list, size_t count,
                           const char *what)
{
    for (size_t i = 0; i < count; i++)
        check(list[i].seen == 1, what, "each stands in its page");
}

/* An answer has its parts where the library puts them, and NULL may be lent
   with no bytes. */
static void check_answers(void)
{
    static const char says[] =
        "Refused on sheet K.\n"
        "Line 1, byte 0, the line: another line is due (3); found the end of "
        "the file; allowed: a first line, UHL1.\n"
        "Sheet K: refused (3) at line 1, byte 0.\n"
        "Sheet S: refused (3) at line 1, byte 0.\n"
        "Sheet C: refused (3) at line 1, byte 0.\n"
        "Sheet E: refused (3) at line 1, byte 0.\n"
        "Sheet P: refused (3) at line 1, byte 0.\n";
    static const char spaces[] = "                    ";
    uint8_t out[ABO_EXPLAIN_BYTES];
    struct abo_answer a = abo_read(NULL, 0, ABO_SHEET_K, 20180101, NULL, 0);
    check(a.number == ABO_BAD_ORDER && a.line == 1 && a.byte == 0,
          "an empty file", "ends early");
    check(a.rows == 0 && a.warnings == 0 && a.needed == 0 &&
              a.header.date == 0 && a.header.client == 0 &&
              a.header.from == 0 && a.header.to == 0 &&
              memcmp(a.header.name, spaces, ABO_NAME_BYTES) == 0,
          "an empty file", "has no rows and no header");
    check(sizeof a.header.name == ABO_NAME_BYTES, "the header's name",
          "has as many bytes as the header says");
    struct abo_text t =
        abo_explain(NULL, 0, ABO_SHEET_K, 20180101, out, sizeof out);
    check(t.number == ABO_ACCEPTED && t.bytes == sizeof says - 1 &&
              memcmp(out, says, sizeof says - 1) == 0,
          "an empty file", "is explained");
    t = abo_explain(NULL, 0, ABO_SHEET_K, 20180101, NULL, 0);
    check(t.number == ABO_NO_ROOM && t.bytes == sizeof says - 1,
          "explaining without room", "says the room needed");
    t = abo_explain(NULL, 0, 0, 20180101, out, sizeof out);
    check(t.number == ABO_BAD_SHEET && t.bytes == 0, "explaining on no sheet",
          "is refused");
    t = abo_explain(NULL, 0, ABO_SHEET_K, 0, out, sizeof out);
    check(t.number == ABO_BAD_TODAY && t.bytes == 0, "explaining on no day",
          "is refused");
    struct abo_written w = abo_write(NULL, 0, NULL, 0, 0, NULL, 0, 0, 0, 0,
                                     ABO_SHEET_C, 20180101, NULL, 0);
    check(w.number == ABO_NOT_A_BATCH && w.row == 1 &&
              w.field == ABO_FIELD_ROW && w.bytes == 0,
          "no rows", "lack the first row");
}

static int is_list(struct abo_list l, uint64_t number, uint64_t refused,
                   uint64_t count, uint64_t needed, uint64_t sheets)
{
    return l.number == number && l.refused == refused && l.count == count &&
           l.needed == needed && l.sheets == sheets;
}

/* A due date in the past, by C alone a warning; behind the header comes CR LF,
   so that line and byte differ from each other. */
static void check_findings(void)
{
    static const uint8_t file[] = "UHL1\r\n1 1501 000000 0300\r\n"
                                  "2 19 1 311217\r\n19 1 0 03000558\r\n"
                                  "3 +\r\n5 +\r\n";
    enum { LEN = sizeof file - 1, PLENTY = 3, C_ALONE = 1 << 2 };
    struct abo_finding f[PLENTY];
    struct abo_list l = abo_findings_of(file, LEN, ABO_SHEET_C, 20180101, f, 3);
    check(is_list(l, ABO_ACCEPTED, 0, 1, 0, C_ALONE), "a past day",
          "is one finding, and C alone takes the file");
    check(f[0].number == 0 && f[0].cause == ABO_CAUSE_WARNED_PAST &&
              f[0].line == 3 && f[0].byte == 33 && f[0].length == 6 &&
              f[0].field == ABO_FOUND_DUE && f[0].least == 20180101 &&
              f[0].most == 0,
          "a past day", "is found at the due date");
    l = abo_findings_of(file, LEN, ABO_SHEET_K, 20180101, f, 1);
    check(is_list(l, ABO_ACCEPTED, 1, 1, 0, C_ALONE) &&
              f[0].number == ABO_BAD_FIELD &&
              f[0].cause == ABO_CAUSE_SPELLING && f[0].line == 1 &&
              f[0].byte == 4 && f[0].length == 0 &&
              f[0].field == ABO_FOUND_DATE && f[0].least == 0 &&
              f[0].most == 0,
          "a file of C", "is refused on K at the creation date");
    l = abo_findings_of(file, LEN, ABO_SHEET_C, 20180101, NULL, 0);
    check(is_list(l, ABO_NO_ROOM, 0, 0, 1, 0), "no room",
          "is answered by the findings needed");
    l = abo_findings(file, LEN, ABO_SHEET_C, 20180101, (uint8_t *)f,
                     ABO_FINDING_BYTES - 1);
    check(is_list(l, ABO_NO_ROOM, 0, 0, 1, 0), "room of one byte too few",
          "is no room");
    l = abo_findings_of(file, LEN, 0, 20180101, f, 3);
    check(is_list(l, ABO_BAD_SHEET, 0, 0, 0, 0), "no sheet", "is refused");
    l = abo_findings_of(file, LEN, ABO_SHEET_C, 0, f, 3);
    check(is_list(l, ABO_BAD_TODAY, 0, 0, 0, 0), "no day", "is refused");
}

/* Three words that differ, so that none can stand in another's place. */
static void check_found(void)
{
    static const uint8_t file[] = {'U', 'H', 'L', '1', '\r', '\n', '1', ' '};
    struct abo_found f = abo_line(file, sizeof file, 2);
    check(f.found == 1 && f.at == 6 && f.len == 2, "a line", "is found");
    f = abo_line(file, sizeof file, 3);
    check(f.found == 1 && f.at == sizeof file && f.len == 0, "the file's end",
          "is a line without bytes");
    f = abo_line(file, sizeof file, 4);
    check(f.found == 0 && f.at == 0 && f.len == 0, "a line too far",
          "is not found");
    f = abo_line(NULL, 0, 1);
    check(f.found == 1 && f.at == 0 && f.len == 0, "an empty file",
          "has its end as line 1");
}

/* The version's parts are those of its text. */
static void check_version(void)
{
    char text[64];
    snprintf(text, sizeof text, "%d.%d", ABO_VERSION_MAJOR, ABO_VERSION_MINOR);
    check(strcmp(text, ABO_VERSION) == 0, ABO_VERSION,
          "is its first part, a full stop, and its second");
}

/* A name of so many bytes is put, or the header is as it was. */
static void check_name(size_t len)
{
    struct abo_header header, before;
    char name[ABO_NAME_BYTES + 2], detail[64];
    size_t i, wrong = 0;
    snprintf(detail, sizeof detail, "with a name of %u bytes", (unsigned)len);
    memset(&header, 7, sizeof header);
    memcpy(&before, &header, sizeof before);
    memset(name, 'x', len);
    name[len] = '\0';
    check(abo_set_name(&header, name) == (len <= ABO_NAME_BYTES),
          "abo_set_name gives 1 or 0", detail);
    for (i = 0; i < ABO_NAME_BYTES; i++)
        wrong += header.name[i] !=
                 (len > ABO_NAME_BYTES ? 7 : i < len ? 'x' : ' ');
    check(wrong == 0, "abo_set_name leaves the name", detail);
    memcpy(header.name, before.name, sizeof header.name);
    check(memcmp(&header, &before, sizeof header) == 0,
          "abo_set_name leaves all else", detail);
}

static int same_answer(const struct abo_answer *a, const struct abo_answer *b)
{
    return a->number == b->number && a->line == b->line &&
           a->byte == b->byte && a->rows == b->rows &&
           a->warnings == b->warnings && a->needed == b->needed &&
           a->header.date == b->header.date &&
           a->header.client == b->header.client &&
           a->header.from == b->header.from && a->header.to == b->header.to &&
           memcmp(a->header.name, b->header.name, ABO_NAME_BYTES) == 0;
}

static int same_written(const struct abo_written *a,
                        const struct abo_written *b)
{
    return a->number == b->number && a->row == b->row &&
           a->field == b->field && a->bytes == b->bytes;
}

/* What the header's own functions are tried on: the small batch, with its text
   and all of a header. */
enum { SOME_DAY = 20180102, SOME_ROOM = 256 };
static const uint8_t some_text[SMALL_TEXT] = {'W', 'a', 'g', 'e'};

static void make_batch(union abo_row *rows, struct abo_header *header)
{
    make_small_batch(rows, header, SOME_DAY);
    rows[2].item.amount = 3150000;
    header->client = 1234567890;
    check(abo_set_name(header, "Jablko a syn") == 1, "a name", "is put");
}

/* abo_write_rows, with this header or with none, is abo_write of the same
   values: answer and output.  The file that is left in `out` has the bytes that
   are given back. */
static size_t check_write_rows(const union abo_row *rows,
                               const struct abo_header *header, uint64_t sheet,
                               size_t room, uint64_t due, uint8_t *out)
{
    uint8_t other[SOME_ROOM];
    struct abo_written w, o;
    memset(out, 7, SOME_ROOM);
    memset(other, 7, sizeof other);
    w = abo_write_rows(rows, SMALL_ROWS, some_text, sizeof some_text, header,
                       sheet, SOME_DAY, out, room);
    o = abo_write((const uint8_t *)rows, SMALL_ROWS * ABO_ROW_BYTES, some_text,
                  sizeof some_text, header ? header->date : 0,
                  header ? header->name : NULL, header ? ABO_NAME_BYTES : 0,
                  header ? header->client : 0, header ? header->from : 0,
                  header ? header->to : 0, sheet, SOME_DAY, other, room);
    check(o.number == due, "abo_write", "has the number that is due");
    check(same_written(&w, &o), "abo_write_rows", "answers as abo_write does");
    check(memcmp(out, other, sizeof other) == 0, "abo_write_rows",
          "writes what abo_write writes");
    return w.number == ABO_ACCEPTED ? (size_t)w.bytes : 0;
}

/* abo_read_rows is abo_read of the same values: answer and rows. */
static void check_read_rows(const uint8_t *file, size_t len, uint64_t sheet,
                            size_t count, uint64_t due)
{
    union abo_row rows[SMALL_ROWS + 1], other[SMALL_ROWS + 1];
    struct abo_answer a, o;
    memset(rows, 7, sizeof rows);
    memset(other, 7, sizeof other);
    a = abo_read_rows(file, len, sheet, SOME_DAY, rows, count);
    o = abo_read(file, len, sheet, SOME_DAY, (uint8_t *)other,
                 count * ABO_ROW_BYTES);
    check(o.number == due, "abo_read", "has the number that is due");
    check(same_answer(&a, &o), "abo_read_rows", "answers as abo_read does");
    check(memcmp(rows, other, sizeof rows) == 0, "abo_read_rows",
          "fills the rows as abo_read does");
}

static void check_helpers(void)
{
    static const size_t names[] = {0, 1, 19, 20, 21};
    union abo_row rows[SMALL_ROWS];
    struct abo_header header;
    uint8_t out[SOME_ROOM];
    size_t i, len;
    for (i = 0; i < COUNT_OF(names); i++)
        check_name(names[i]);
    make_batch(rows, &header);
    len = check_write_rows(rows, &header, ABO_SHEET_K, SOME_ROOM, ABO_ACCEPTED,
                           out);
    check_read_rows(out, len, ABO_SHEET_K, SMALL_ROWS + 1, ABO_ACCEPTED);
    check_read_rows(out, len, ABO_SHEET_K, SMALL_ROWS - 1, ABO_NO_ROOM);
    check_read_rows(out, len, ABO_SHEET_S, SMALL_ROWS, ABO_BAD_PAYER_BANK);
    check_write_rows(rows, &header, ABO_SHEET_K, 1, ABO_NO_ROOM, out);
    check_write_rows(rows, NULL, ABO_SHEET_K, SOME_ROOM, ABO_NOT_A_BATCH, out);
    check_write_rows(rows, &header, ABO_SHEET_C, SOME_ROOM, ABO_ACCEPTED, out);
    len = check_write_rows(rows, NULL, ABO_SHEET_C, SOME_ROOM, ABO_ACCEPTED,
                           out);
    check_read_rows(out, len, ABO_SHEET_C, SMALL_ROWS, ABO_ACCEPTED);
    rows[2].item.bank = 0;
    check_write_rows(rows, &header, ABO_SHEET_K, SOME_ROOM, ABO_NOT_A_BATCH,
                     out);
}

/* What word 21 of the small batch's rows may hold: an item's reference is
   tested, and the same word of the rows above it is none. */
static void check_reference_written(uint64_t reference, uint64_t due)
{
    union abo_row rows[SMALL_ROWS];
    struct abo_header header;
    uint8_t out[SOME_ROOM], plain[SOME_ROOM];
    size_t row, len;
    make_batch(rows, &header);
    len = check_write_rows(rows, &header, ABO_SHEET_K, SOME_ROOM, ABO_ACCEPTED,
                           plain);
    for (row = 0; row + 1 < SMALL_ROWS; row++)
        rows[row].word[ABO_ITEM_REFERENCE] = UINT64_MAX;
    rows[2].item.reference = reference;
    struct abo_written w =
        abo_write_rows(rows, SMALL_ROWS, some_text, sizeof some_text, &header,
                       ABO_SHEET_K, SOME_DAY, out, sizeof out);
    check(w.number == due, "a reference", "is taken exactly below 2^32");
    if (due == ABO_ACCEPTED)
        check(w.bytes == len && memcmp(out, plain, len) == 0, "a reference",
              "leaves the file as it is without");
    else
        check(w.row == 3 && w.field == ABO_ITEM_REFERENCE && w.bytes == 0,
              "a reference", "is refused at its row and field");
}

/* Reading stores 0 over whatever stood there; a refusal leaves it. */
static void check_reference_read(uint64_t sheet, uint64_t due)
{
    union abo_row rows[SMALL_ROWS];
    struct abo_header header;
    uint8_t out[SOME_ROOM];
    make_batch(rows, &header);
    rows[2].item.reference = 7;
    size_t len = check_write_rows(rows, &header, ABO_SHEET_K, SOME_ROOM,
                                  ABO_ACCEPTED, out);
    memset(rows, 0xff, sizeof rows);
    struct abo_answer a =
        abo_read_rows(out, len, sheet, SOME_DAY, rows, SMALL_ROWS);
    check(a.number == due, "a file", "has the number that is due");
    check(rows[2].item.reference == (due == ABO_ACCEPTED ? 0 : UINT64_MAX),
          "a reference", "is 0 when read, and as it was when refused");
}

static void check_references(void)
{
    static const uint64_t taken[] = {0, 1, INT32_MAX, UINT32_MAX - 1,
                                     UINT32_MAX};
    static const uint64_t refused[] = {
        UINT64_C(1) << 32, (UINT64_C(1) << 32) + 1, UINT64_C(1) << 63,
        UINT64_MAX};
    for (size_t i = 0; i < COUNT_OF(taken); i++)
        check_reference_written(taken[i], ABO_ACCEPTED);
    for (size_t i = 0; i < COUNT_OF(refused); i++)
        check_reference_written(refused[i], ABO_NOT_A_BATCH);
    check_reference_read(ABO_SHEET_K, ABO_ACCEPTED);
    check_reference_read(ABO_SHEET_S, ABO_BAD_PAYER_BANK);
}

/* ABO_EXPLAIN_BYTES holds the longest text of a refused file: numbers of 20
   digits, the longest field, rule and spelling, 60 bytes that are all escaped,
   and six sheets, so that one more is no change for a program. */
static void check_longest_text(void)
{
    enum { ESCAPED = 4 * 60, LONGEST_SHEETS = 6 };
    char text[2 * ABO_EXPLAIN_BYTES], found[ESCAPED + 1];
    unsigned long long most = UINT64_MAX;
    memset(found, 'x', ESCAPED);
    found[ESCAPED] = '\0';
    int len = snprintf(
        text, sizeof text,
        "Refused on sheet K.\nLine %llu, byte %llu, the account file's end: "
        "the interval or the number is not allowed (%d); found \"%s\", the "
        "first 60 of %llu bytes; allowed: 1 to 16 digits, or 1 to 6 digits, a "
        "dash and 1 to 10 digits; nothing or zeros alone for a single group, "
        "digits, and where there is a comma, two digits behind it and one or "
        "more before it.\n",
        most, most, (int)ABO_TOO_MANY, found, most);
    int line = snprintf(text, sizeof text,
                        "Sheet K: refused (%d) at line %llu, byte %llu.\n",
                        (int)ABO_TOO_MANY, most, most);
    check(len + LONGEST_SHEETS * line <= ABO_EXPLAIN_BYTES, "the longest text",
          "has room in what the header says");
}

int main(int argc, char **argv)
{
    if (argc != 3) {
        fprintf(stderr, "header: name docs/ROWS.md and docs/NUMBERS.md.\n");
        return 2;
    }
    check_rows_page(argv[1]);
    check_numbers_page(argv[2]);
    for (size_t i = 0; i < COUNT_OF(fields); i++)
        check(fields[i].seen == 1, fields[i].words, "stands in the page");
    check_all_seen(views, COUNT_OF(views), "views");
    check_all_seen(header_fields, COUNT_OF(header_fields), "header's fields");
    check_all_seen(numbers, COUNT_OF(numbers), "numbers returned");
    check_all_seen(causes, COUNT_OF(causes), "causes");
    check_all_seen(found_fields, COUNT_OF(found_fields), "found fields");
    check_all_seen(finding_words, COUNT_OF(finding_words), "finding's words");
    check_answers();
    check_findings();
    check_found();
    check_longest_text();
    check_version();
    check_helpers();
    check_references();
    return last_line();
}
