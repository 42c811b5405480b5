/*
 * What the second program says of a file, and files to try, for host/abo/abo_test.sh:
 *
 *   compare_abo answer FILE SHEET DAY FOLDER   puts into the folder: `line`, the answer in one line; `text`, what explaining says;
 *                                              `canonical`, the canonical file; `items`, a line for each item, as the tool shows it
 *                                              but with one space between words, and a dot for each letter above 126; `accepted`,
 *                                              what check says first.  The last three are empty if the file is refused
 *   compare_abo make SHEET KIND BYTES          a valid file of about so many bytes (host/generate/sized.h names the kinds)
 *   compare_abo generate SEED FILE             puts the file of a seed there; prints the sheet and the day to read it with
 *   compare_abo statement FILE                 a line for each movement: what it does to the balance, the balance behind it and the
 *                                              variable symbol, divided by commas; or `refused N record R byte B`
 *   compare_abo make_statement BYTES           a valid statement file of about so many bytes
 *   compare_abo generate_statement SEED FILE   puts the statement file of a seed there
 *
 * SHEET is a number, DAY is YYYYMMDD.  The exit status is the tool's: 0 accepted, 1 refused, 2 for a sheet or a day that is
 * none, and for trouble.
 */
#include <inttypes.h>
#include <stdbool.h>
#include <stdio.h>
#include <stdlib.h>
#include <string.h>

#include "../../peer/peer.h"
#include "../generate/generate.h"
#include "../generate/sized.h"
#include "../generate/statements.h"
#include "../generate/words.h"

struct reading {
    struct text file, rows;
    uint64_t sheet, today;
    struct peer_answer answer;
};

static void judge(struct reading *a)
{
    a->answer = peer_read(a->file.data, a->file.len, a->sheet, a->today, NULL, 0);
    text_repeat(&a->rows, 0, (size_t)a->answer.needed * ABO_ROW_BYTES);
    if (a->answer.number == 16)
        a->answer = peer_read(a->file.data, a->file.len, a->sheet, a->today,
                              a->rows.data, a->rows.len);
}

static void answer_line(const struct reading *a, FILE *to)
{
    uint8_t line[100];
    struct peer_text t = peer_explain(a->file.data, a->file.len, a->sheet,
                                      a->today, line, sizeof line);
    fwrite(line, 1, (size_t)t.bytes, to);
}

static void explain(const struct reading *a, FILE *to)
{
    struct text out = {0};
    struct peer_text t = peer_findings_text(a->file.data, a->file.len, a->sheet,
                                            a->today, NULL, 0);
    text_repeat(&out, 0, (size_t)t.bytes);
    peer_findings_text(a->file.data, a->file.len, a->sheet, a->today, out.data,
                       out.len);
    fwrite(out.data, 1, out.len, to);
    text_free(&out);
}

static void rewrite(const struct reading *a, FILE *to)
{
    const struct peer_header *h = &a->answer.header;
    struct text out = {0};
    struct peer_written w = {16, 0, 0, 0};
    while (w.number == 16) {
        text_repeat(&out, 0, (size_t)w.bytes - out.len);
        w = peer_write(a->rows.data, a->rows.len, a->file.data, a->file.len,
                       h->date, h->name, sizeof h->name, h->client, h->from, h->to,
                       a->sheet, a->today, out.data, out.len);
    }
    fwrite(out.data, 1, out.len, to);
    text_free(&out);
}

/* Words are separated by a space each, and so are the first word and the line's start. */
static void print_account(FILE *to, const uint8_t *row, unsigned place)
{
    if (word_of(row, 0, place) != 0)
        fprintf(to, " %" PRIu64 "-%" PRIu64, word_of(row, 0, place), word_of(row, 0, place + 1));
    else if (word_of(row, 0, place + 1) != 0)
        fprintf(to, " %" PRIu64, word_of(row, 0, place + 1));
}

static void print_text(FILE *to, const struct reading *a, const uint8_t *row,
                       unsigned place)
{
    const uint8_t *bytes = a->file.data + word_of(row, 0, place);
    fprintf(to, " \"");
    for (uint64_t i = 0; i < word_of(row, 0, place + 1); i++)
        fputc(bytes[i] < 127 ? bytes[i] : '.', to);
    fputc('"', to);
}

static void print_item(FILE *to, const struct reading *a, const uint8_t *row)
{
    unsigned used = ABO_PARTS;
    print_account(to, row, 1);
    print_account(to, row, 3);
    fprintf(to, " %04" PRIu64, word_of(row, 0, 5));
    fprintf(to, " %" PRIu64 ".%" PRIu64 "%" PRIu64, word_of(row, 0, 6) / 100,
           word_of(row, 0, 6) / 10 % 10, word_of(row, 0, 6) % 10);
    fprintf(to, " %" PRIu64 " %" PRIu64 " %04" PRIu64 " %" PRIu64, word_of(row, 0, 7),
           word_of(row, 0, 8), word_of(row, 0, 9), word_of(row, 0, 10));
    while (used > 0 && word_of(row, 0, 10 + 2 * used) == 0)
        used--;
    for (unsigned i = 0; i < used; i++)
        print_text(to, a, row, 11 + 2 * i);
    if (word_of(row, 0, 20) != 0) {
        fprintf(to, " name");
        print_text(to, a, row, 19);
    }
    fputc('\n', to);
}

static void items(const struct reading *a, FILE *to)
{
    for (size_t at = 0; at < a->rows.len; at += ABO_ROW_BYTES)
        if (word_of(a->rows.data + at, 0, 0) == ABO_ROW_ITEM)
            print_item(to, a, a->rows.data + at);
}

/* Crowns of any size, without the tool's way of adding. */
static void print_crowns(FILE *to, unsigned __int128 haler)
{
    char digits[50];
    int count = 0;
    for (unsigned __int128 rest = haler / 100; rest > 0 || count == 0; rest /= 10)
        digits[count++] = (char)('0' + (int)(rest % 10));
    while (count > 0)
        fputc(digits[--count], to);
    fprintf(to, ".%02d", (int)(haler % 100));
}

/* How many items account files of a kind have, and their sum. */
static uint64_t items_of(const struct reading *a, uint64_t kind, unsigned __int128 *sum)
{
    uint64_t count = 0, file = 0;
    *sum = 0;
    for (size_t at = 0; at < a->rows.len; at += ABO_ROW_BYTES) {
        const uint8_t *row = a->rows.data + at;
        if (word_of(row, 0, 0) == ABO_ROW_FILE)
            file = word_of(row, 0, 1);
        if (word_of(row, 0, 0) != ABO_ROW_ITEM || file != kind)
            continue;
        *sum += word_of(row, 0, 6);
        count++;
    }
    return count;
}

static void accepted(const struct reading *a, FILE *to)
{
    static const char *const one[] = {"payment", "collection", "priority payment", "instant payment"};
    fprintf(to, "accepted");
    for (uint64_t kind = 1501; kind <= 1504; kind++) {
        unsigned __int128 sum;
        uint64_t count = items_of(a, kind, &sum);
        if (count == 0)
            continue;
        fprintf(to, ", %" PRIu64 " %s%s, ", count, one[kind - 1501], count > 1 ? "s" : "");
        print_crowns(to, sum);
        fprintf(to, " crowns");
    }
    fprintf(to, ", %" PRIu64 " warning%s\n", a->answer.warnings, a->answer.warnings == 1 ? "" : "s");
}

/* Puts into a file of the folder what is to be said, or nothing. */
static bool put(const struct reading *a, const char *folder, const char *name,
                void (*say)(const struct reading *, FILE *))
{
    char path[4096];
    snprintf(path, sizeof path, "%s/%s", folder, name);
    FILE *to = fopen(path, "wb");
    if (to == NULL)
        return false;
    if (say != NULL)
        say(a, to);
    return fclose(to) == 0;
}

static int answer(char **argument)
{
    struct reading a = {.sheet = strtoull(argument[1], NULL, 10),
                      .today = strtoull(argument[2], NULL, 10)};
    if (!text_load(&a.file, argument[0]))
        return 2;
    judge(&a);
    uint64_t number = a.answer.number;
    bool whole = put(&a, argument[3], "line", answer_line) &&
                 put(&a, argument[3], "text", explain) &&
                 put(&a, argument[3], "canonical", number == 0 ? rewrite : NULL) &&
                 put(&a, argument[3], "items", number == 0 ? items : NULL) &&
                 put(&a, argument[3], "accepted", number == 0 ? accepted : NULL);
    text_free(&a.file);
    text_free(&a.rows);
    return !whole || number == 1 || number == 2 ? 2 : number == 0 ? 0 : 1;
}

static int make(char **argument)
{
    struct sized_file file = {0};
    bool made = make_sized_file(&file, (unsigned)strtoul(argument[0], NULL, 10), argument[1], strtoul(argument[2], NULL, 10));
    if (made)
        fwrite(file.bytes.data, 1, file.bytes.len, stdout);
    text_free(&file.bytes);
    return made ? 0 : 2;
}

static int generate_to(char **argument)
{
    struct made made = {0};
    generate(&made, strtoull(argument[0], NULL, 10));
    bool whole = text_save(&made.file, argument[1]);
    printf("%" PRIu64 " %" PRIu64 "\n", made.sheet, made.today);
    text_free(&made.file);
    return whole ? 0 : 2;
}

static void print_signed(__int128 haler)
{
    if (haler < 0)
        putchar('-');
    print_crowns(stdout, (unsigned __int128)(haler < 0 ? -haler : haler));
    putchar(',');
}

static void print_movements(const struct text *rows)
{
    __int128 balance = 0;
    for (size_t at = 0; at < rows->len; at += ABO_STATEMENT_ROW_BYTES) {
        union abo_statement_row row;
        memcpy(&row, rows->data + at, sizeof row);
        if (row.word[0] == ABO_STATEMENT_HEAD) {
            balance = row.head.old_balance;
            continue;
        }
        int64_t amount = (int64_t)row.movement.amount;
        if (row.movement.code == 1 || row.movement.code == 5)
            amount = -amount;
        balance += amount;
        print_signed(amount);
        print_signed(balance);
        printf("%" PRIu64 "\n", row.movement.variable);
    }
}

static int statement(char **argument)
{
    struct text file = {0}, rows = {0};
    if (!text_load(&file, argument[0]))
        return 2;
    text_repeat(&rows, 0, file.len / ABO_RECORD_BYTES * ABO_STATEMENT_ROW_BYTES);
    struct peer_statement_answer a = peer_statement_read(file.data, file.len, rows.data, rows.len);
    if (a.number == 0)
        print_movements(&rows);
    else
        printf("refused %" PRIu64 " record %" PRIu64 " byte %" PRIu64 "\n", a.number, a.line, a.byte);
    text_free(&file);
    text_free(&rows);
    return a.number == 0 ? 0 : 1;
}

static int make_statement(char **argument)
{
    struct text file = {0};
    size_t records = strtoul(argument[0], NULL, 10) / ABO_RECORD_BYTES;
    put_many_statements(&file, records / 11 + 1, 10);
    fwrite(file.data, 1, file.len, stdout);
    text_free(&file);
    return 0;
}

static int generate_statement_to(char **argument)
{
    struct text file = {0};
    generate_statement(&file, strtoull(argument[0], NULL, 10));
    bool whole = text_save(&file, argument[1]);
    text_free(&file);
    return whole ? 0 : 2;
}

int main(int argc, char **argv)
{
    const char *what = argc > 1 ? argv[1] : "";
    if (argc == 3 && strcmp(what, "statement") == 0)
        return statement(argv + 2);
    if (argc == 3 && strcmp(what, "make_statement") == 0)
        return make_statement(argv + 2);
    if (argc == 4 && strcmp(what, "generate_statement") == 0)
        return generate_statement_to(argv + 2);
    if (argc == 4 && strcmp(what, "generate") == 0)
        return generate_to(argv + 2);
    if (argc == 5 && strcmp(what, "make") == 0)
        return make(argv + 2);
    if (argc == 6 && strcmp(what, "answer") == 0)
        return answer(argv + 2);
    fputs("The first lines of host/compare/compare_abo.c say how it is used.\n", stderr);
    return 2;
}
