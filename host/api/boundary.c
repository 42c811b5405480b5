/*
 * The boundary that no proof crosses: the order of a call's arguments and the places of an answer's fields, as C sees them.  Each call is
 * made with arguments that all differ, and each word of its answer is looked up at its offset and held against what the second program
 * answers.  That the arguments tell each other apart is tested too: the second program answers otherwise where two are exchanged.  A file that a
 * register does not refuse is held against the second program's reading; where a register's marks lie and what its calls answer stands here
 * as it was worked out by hand.
 */
#include <stdbool.h>
#include <stdio.h>
#include <stdlib.h>
#include <string.h>

#include <abo.h>
#include "../../peer/peer.h"
#include "../call/lines.h"
#include "page.h"
#include "small_statement.h"

enum { ROWS = 6, ROOM = 4096 };

/* The word of a struct at an offset, whatever its members are called. */
static uint64_t word_at(const void *from, size_t offset)
{
    uint64_t word;
    memcpy(&word, (const uint8_t *)from + offset, sizeof word);
    return word;
}

/* Which words of each kind of answer were anything but 0. */
enum kind { ANSWER, WRITTEN, TEXT, FOUND, STATEMENT, LIST, REGISTER, KINDS };
enum { MOST_WORDS = 10 };
static const size_t words_of[KINDS] = {10, 4, 2, 3, 5, 5, 2};
static bool seen[KINDS][MOST_WORDS];

static void check_words(enum kind kind, const char *what, const void *answer, const uint64_t *due)
{
    char detail[100];
    for (size_t i = 0; i < words_of[kind]; i++) {
        seen[kind][i] = seen[kind][i] || due[i] != 0;
        snprintf(detail, sizeof detail, "byte %zu has %llu, and %llu is due", i * 8,
                 (unsigned long long)word_at(answer, i * 8), (unsigned long long)due[i]);
        check(word_at(answer, i * 8) == due[i], what, detail);
    }
}

/* ---- Reading ---- */

static void check_read(const char *what, const char *file, uint64_t sheet, uint64_t today, size_t room)
{
    static uint8_t rows[ROOM], due_rows[ROOM];
    size_t len = strlen(file);
    memset(rows, 0xa5, sizeof rows);
    memset(due_rows, 0xa5, sizeof due_rows);
    struct abo_answer a = abo_read((const uint8_t *)file, len, sheet, today, rows, room);
    struct peer_answer p = peer_read((const uint8_t *)file, len, sheet, today, due_rows, room);
    const uint64_t due[] = {p.number,   p.line,        p.byte,          p.rows,        p.warnings,
                            p.needed,   p.header.date, p.header.client, p.header.from, p.header.to};
    check_words(ANSWER, what, &a, due);
    check(memcmp((const uint8_t *)&a + sizeof due, p.header.name, 20) == 0, what, "the name lies behind ten words");
    check(memcmp(rows, due_rows, sizeof rows) == 0, what, "the rows are the second program's");
}

static const char accepted[] = "UHL1311217Jablko a syn s.r.o. 1234567890007912000000000000\n"
                               "1 1501 008001 8100\n"
                               "2 19-19 1110 020118\n"
                               "705 1001 42 0103000558 17 AV:led\n"
                               "5152046 106 43 0203000308 18\n"
                               "705 3 44 03000558\n"
                               "3 +\n"
                               "5 +\n";

static void check_reading(void)
{
    check_read("an accepted file", accepted, ABO_SHEET_K, 20180101, ROOM);
    check_read("an accepted file, with no room", accepted, ABO_SHEET_K, 20180101, 2 * ABO_ROW_BYTES);
    check_read("a file of another sheet", accepted, ABO_SHEET_S, 20180101, ROOM);
    check_read("a file on another day", accepted, ABO_SHEET_K, 20180103, ROOM);
    check_read("a day in the sheet's place", accepted, 20180101, ABO_SHEET_K, ROOM);
    check_read("no day", accepted, ABO_SHEET_K, 1, ROOM);
}

/* ---- Writing ---- */

struct numbers {
    uint64_t date, client, from, to, sheet, today;
};

static const struct numbers usual = {20171231, 1234567890, 7, 912, ABO_SHEET_K, 20180101};
static const char name[] = "Jablko a syn s.r.o. ", texts[] = "led a mraz";
static union abo_row rows[ROWS];

static void make_rows(void)
{
    memset(rows, 0, sizeof rows);
    rows[0].file = (struct abo_file_row){.row = ABO_ROW_FILE, .kind = 1501, .number = 8001};
    rows[1].group = (struct abo_group_row){.row = ABO_ROW_GROUP, .due = 20180102};
    for (size_t i = 2; i < ROWS; i++)
        rows[i].item = (struct abo_item_row){.row = ABO_ROW_ITEM,
                                             .payer = {19, 19},
                                             .payee = {0, 705},
                                             .bank = 300 + i,
                                             .amount = 1000 + i,
                                             .variable = 40 + i,
                                             .specific = 50 + i,
                                             .constant = 60 + i,
                                             .priority = 3 + i,
                                             .part = {{i, 3}, {i + 1, 2}, {0, 0}, {i, 1}}};
}

static struct peer_written by_peer(const struct numbers *a, size_t count, uint8_t *out, size_t room)
{
    return peer_write((const uint8_t *)rows, count * sizeof *rows, (const uint8_t *)texts, sizeof texts - 1, a->date,
                      (const uint8_t *)name, sizeof name - 1, a->client, a->from, a->to, a->sheet, a->today, out, room);
}

static void check_write(const char *what, const struct numbers *a, size_t count, size_t room)
{
    static uint8_t out[ROOM], due_out[ROOM];
    memset(out, 0xa5, sizeof out);
    memset(due_out, 0xa5, sizeof due_out);
    struct abo_written w =
        abo_write((const uint8_t *)rows, count * sizeof *rows, (const uint8_t *)texts, sizeof texts - 1, a->date,
                  (const uint8_t *)name, sizeof name - 1, a->client, a->from, a->to, a->sheet, a->today, out, room);
    struct peer_written p = by_peer(a, count, due_out, room);
    const uint64_t due[] = {p.number, p.row, p.field, p.bytes};
    check_words(WRITTEN, what, &w, due);
    check(memcmp(out, due_out, sizeof out) == 0, what, "the output is the second program's");
}

/* Two numbers exchanged are answered otherwise, so that a call which mixes them up is found out. */
static void check_told_apart(void)
{
    static uint8_t out[ROOM], other[ROOM];
    uint64_t words[6];
    char detail[60];
    struct peer_written whole = by_peer(&usual, ROWS, out, ROOM);
    check(whole.number == ABO_ACCEPTED, "writing", "the batch is written");
    for (size_t i = 0; i < 6; i++)
        for (size_t k = i + 1; k < 6; k++) {
            struct numbers swapped;
            memcpy(words, &usual, sizeof words);
            uint64_t kept = words[i];
            words[i] = words[k];
            words[k] = kept;
            memcpy(&swapped, words, sizeof words);
            memset(other, 0, sizeof other);
            struct peer_written p = by_peer(&swapped, ROWS, other, ROOM);
            snprintf(detail, sizeof detail, "numbers %zu and %zu are told apart", i, k);
            check(p.number != whole.number || p.bytes != whole.bytes || memcmp(out, other, (size_t)whole.bytes) != 0,
                  "writing", detail);
            check_write("writing, two numbers exchanged", &swapped, ROWS, ROOM);
        }
}

static void check_writing(void)
{
    check_write("a batch", &usual, ROWS, ROOM);
    check_write("a batch with no room", &usual, ROWS, 10);
    check_write("a batch without items", &usual, 2, ROOM);
    check_told_apart();
    rows[4].item.constant = 10000;
    check_write("a batch with a wrong constant symbol", &usual, ROWS, ROOM);
    make_rows();
    struct numbers other = usual;
    other.sheet = ABO_SHEET_E;
    check_write("a priority on another sheet", &other, ROWS, ROOM);
}

/* ---- Explaining, listing what is found, and finding a line ---- */

static void check_explain(const char *what, uint64_t sheet, uint64_t today, size_t room)
{
    uint8_t out[ABO_EXPLAIN_BYTES], due_out[ABO_EXPLAIN_BYTES];
    memset(out, 0xa5, sizeof out);
    memset(due_out, 0xa5, sizeof due_out);
    struct abo_text t = abo_explain((const uint8_t *)accepted, sizeof accepted - 1, sheet, today, out, room);
    struct peer_text p = peer_findings_text((const uint8_t *)accepted, sizeof accepted - 1, sheet, today, due_out, room);
    const uint64_t due[] = {p.number, p.bytes};
    check_words(TEXT, what, &t, due);
    check(memcmp(out, due_out, sizeof out) == 0, what, "the text is the second program's");
}

static void check_findings(const char *what, uint64_t sheet, uint64_t today, size_t room)
{
    uint8_t out[4 * ABO_FINDING_BYTES], due_out[4 * ABO_FINDING_BYTES];
    memset(out, 0xa5, sizeof out);
    memset(due_out, 0xa5, sizeof due_out);
    struct abo_list l = abo_findings((const uint8_t *)accepted, sizeof accepted - 1, sheet, today, out, room);
    struct peer_list p = peer_findings((const uint8_t *)accepted, sizeof accepted - 1, sheet, today, due_out, room);
    const uint64_t due[] = {p.number, p.refused, p.count, p.needed, p.sheets};
    check_words(LIST, what, &l, due);
    check(memcmp(out, due_out, sizeof out) == 0, what, "the findings are the second program's");
}

static void check_lines(void)
{
    struct lines l = {0};
    split_lines(&l, (const uint8_t *)accepted, sizeof accepted - 1);
    for (uint64_t line = 0; line <= l.count + 1; line++) {
        struct abo_found f = abo_line((const uint8_t *)accepted, sizeof accepted - 1, line), g = line_numbered(&l, line);
        const uint64_t due[] = {g.found, g.at, g.len};
        check_words(FOUND, "a line", &f, due);
    }
    free(l.list);
}

/* ---- The register ---- */

enum { DATE = 20171231, BEHIND = 5, LENT = ABO_REGISTER_BYTES + BEHIND };

/* Lent bytes that begin with a register of the accepted file's date: number 003 is marked, and 008, the file's own, if asked for. */
static void make_register(uint8_t lent[LENT], uint64_t date, bool used)
{
    memset(lent, 0xa5, LENT);
    memset(lent, 0, ABO_REGISTER_BYTES);
    for (size_t i = 0; i < 8; i++)
        lent[i] = (uint8_t)(date >> 8 * i);
    lent[8] = 1 << 3;
    lent[9] = used ? 1 : 0;
}

/* What reading against a register answers and leaves: the second program's reading, or a refusal at a place. */
static void check_registered(const char *what, uint64_t sheet, uint64_t today, size_t room, bool used, const uint64_t refusal[3])
{
    static uint8_t out[ROOM], due_out[ROOM];
    uint8_t lent[LENT], due_lent[LENT];
    memset(out, 0xa5, sizeof out);
    memset(due_out, 0xa5, sizeof due_out);
    make_register(lent, DATE, used);
    struct abo_answer a =
        abo_read_registered((const uint8_t *)accepted, sizeof accepted - 1, sheet, today, out, room, lent, sizeof lent);
    struct peer_answer p = {0};
    if (refusal == NULL)
        p = peer_read((const uint8_t *)accepted, sizeof accepted - 1, sheet, today, due_out, room);
    const uint64_t due[] = {refusal ? refusal[0] : p.number, refusal ? refusal[1] : p.line, refusal ? refusal[2] : p.byte,
                            p.rows,        p.warnings,    p.needed,
                            p.header.date, p.header.client, p.header.from, p.header.to};
    make_register(due_lent, DATE, used || (p.number == ABO_ACCEPTED && refusal == NULL));
    check_words(ANSWER, what, &a, due);
    check(memcmp(out, due_out, sizeof out) == 0, what, "the rows are the second program's");
    check(memcmp(lent, due_lent, sizeof lent) == 0, what, "the register has the file's mark exactly if it is accepted");
}

static void check_reading_registered(void)
{
    static const uint64_t taken[] = {ABO_NUMBER_USED, 2, 59 + 7};
    check_registered("a file against a register", ABO_SHEET_K, 20180101, ROOM, false, NULL);
    check_registered("a file against a register, with no room", ABO_SHEET_K, 20180101, 2 * ABO_ROW_BYTES, false, NULL);
    check_registered("a file of another sheet against a register", ABO_SHEET_S, 20180101, ROOM, true, NULL);
    check_registered("a day in the sheet's place, with a register", 20180101, ABO_SHEET_K, ROOM, true, NULL);
    check_registered("a file whose number is used", ABO_SHEET_K, 20180101, ROOM, true, taken);
}

static void check_register_answer(const char *what, struct abo_register_answer a, uint64_t number, uint64_t value)
{
    const uint64_t due[] = {number, value};
    check_words(REGISTER, what, &a, due);
}

/* The number that is given back, the count of bytes and the date all differ, so that none is taken for another. */
static void check_registers(void)
{
    uint8_t lent[LENT], due_lent[LENT];
    make_register(lent, DATE, true);
    check_register_answer("the lowest free number", abo_register_lowest(lent, sizeof lent), ABO_ACCEPTED, 0);
    check_register_answer("how many are free", abo_register_free(lent, sizeof lent), ABO_ACCEPTED, 998);
    check_register_answer("a number that is not marked", abo_register_give_back(lent, sizeof lent, sizeof lent), ABO_NOT_TAKEN, 0);
    make_register(due_lent, DATE, false);
    check_register_answer("a number given back", abo_register_give_back(lent, sizeof lent, 8), ABO_ACCEPTED, 0);
    check(memcmp(lent, due_lent, sizeof lent) == 0, "a number given back", "is free again, and nothing else is changed");
    check_register_answer("a day without room", abo_register_start(DATE, lent, BEHIND), ABO_NO_ROOM, ABO_REGISTER_BYTES);
    check_register_answer("a day in the room's place", abo_register_start(LENT, lent, sizeof lent), ABO_BAD_TODAY, 0);
    check(memcmp(lent, due_lent, sizeof lent) == 0, "a day that is not started", "changes nothing");
    make_register(due_lent, 20180203, false);
    due_lent[8] = 0;
    check_register_answer("a day", abo_register_start(20180203, lent, sizeof lent), ABO_ACCEPTED, 0);
    check(memcmp(lent, due_lent, sizeof lent) == 0, "a day", "is stored in the first bytes");
    lent[8] = 0xff;
    check_register_answer("the lowest free number behind eight", abo_register_lowest(lent, sizeof lent), ABO_ACCEPTED, 8);
}

/* ---- Statements ---- */

static uint8_t statement[SMALL_FILE]; /* as the second program writes it */

/* The rows differ from each other and from the file in every count and byte, so that no slice is taken for another. */
static void check_statement_read(const char *what, size_t len, size_t room)
{
    static uint8_t out[ROOM], due_out[ROOM];
    memset(out, 0xa5, sizeof out);
    memset(due_out, 0xa5, sizeof due_out);
    struct abo_statement_answer a = abo_statement_read(statement, len, out, room);
    struct peer_statement_answer p = peer_statement_read(statement, len, due_out, room);
    const uint64_t due[] = {p.number, p.line, p.byte, p.rows, p.needed};
    check_words(STATEMENT, what, &a, due);
    check(memcmp(out, due_out, sizeof out) == 0, what, "the rows are the second program's");
}

static void check_statement_write(const char *what, const union abo_statement_row *from, size_t len, size_t room)
{
    static uint8_t out[ROOM], due_out[ROOM];
    memset(out, 0xa5, sizeof out);
    memset(due_out, 0xa5, sizeof due_out);
    struct abo_written w = abo_statement_write((const uint8_t *)from, len, out, room);
    struct peer_written p = peer_statement_write((const uint8_t *)from, len, due_out, room);
    const uint64_t due[] = {p.number, p.row, p.field, p.bytes};
    check_words(WRITTEN, what, &w, due);
    check(memcmp(out, due_out, sizeof out) == 0, what, "the output is the second program's");
}

static void check_statements(void)
{
    static union abo_statement_row small[SMALL_RECORDS];
    make_small_statement(small);
    struct peer_written p = peer_statement_write((const uint8_t *)small, sizeof small, statement, sizeof statement);
    check(p.number == ABO_ACCEPTED && p.bytes == sizeof statement, "a statement", "is written by the second program");
    check_statement_read("a statement", sizeof statement, ROOM);
    check_statement_read("a statement with no room", sizeof statement, sizeof small - 1);
    check_statement_read("a statement cut short", sizeof statement - 1, ROOM);
    check_statement_write("a statement's rows", small, sizeof small, ROOM);
    check_statement_write("a statement's rows with no room", small, sizeof small, sizeof statement - 1);
    check_statement_write("a statement's rows cut short", small, sizeof small - 1, ROOM);
    small[1].movement.code = 3;
    check_statement_write("a statement's rows with a wrong code", small, sizeof small, ROOM);
    statement[ABO_RECORD_BYTES + 60] = '3';
    check_statement_read("a statement with a wrong code", sizeof statement, ROOM);
}

/* A field that is 0 in every answer would be tested by nothing. */
static void check_all_seen(void)
{
    for (int kind = 0; kind < KINDS; kind++)
        for (size_t i = 0; i < words_of[kind]; i++)
            check(seen[kind][i], "an answer's word", "is something else than 0 in some answer");
}

int main(void)
{
    make_rows();
    check_reading();
    check_writing();
    check_explain("an explanation", ABO_SHEET_K, 20180101, ABO_EXPLAIN_BYTES);
    check_explain("an explanation with no room", ABO_SHEET_K, 20180101, 7);
    check_explain("an explanation of a refusal", ABO_SHEET_S, 20180101, ABO_EXPLAIN_BYTES);
    check_explain("a day in the sheet's place", 20180101, ABO_SHEET_K, ABO_EXPLAIN_BYTES);
    check_explain("an explanation on another day", ABO_SHEET_K, 20180103, ABO_EXPLAIN_BYTES);
    check_findings("two findings", ABO_SHEET_K, 20180101, 4 * ABO_FINDING_BYTES);
    check_findings("two findings in room for one", ABO_SHEET_K, 20180101, 2 * ABO_FINDING_BYTES - 1);
    check_findings("the finding of a refusal", ABO_SHEET_S, 20180101, ABO_FINDING_BYTES);
    check_findings("findings on another day", ABO_SHEET_K, 20180103, 4 * ABO_FINDING_BYTES);
    check_findings("a day in the sheet's place of findings", 20180101, ABO_SHEET_K, 4 * ABO_FINDING_BYTES);
    check_lines();
    check_reading_registered();
    check_registers();
    check_statements();
    check_all_seen();
    return last_line();
}
