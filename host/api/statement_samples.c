/*
 * The samples of source documents 000 and 003 (host/statements), as the library
 * reads them: the first of 000 is accepted, each of its fields is what the
 * document means, and it is written back as it was; the second of 000 has a
 * record 078; in 003 the movement is not what the head says, and mended field by
 * field it is accepted.
 *
 *   statement_samples FOLDER
 */
#include <stdio.h>
#include <string.h>

#include <abo.h>
#include "../call/show.h"
#include "../generate/text.h"

enum { ROWS = 2 };

static struct text file;
static union abo_statement_row rows[ROWS];

static void load(const char *folder, const char *name)
{
    char path[4096];
    snprintf(path, sizeof path, "%s/%s", folder, name);
    if (!text_load(&file, path))
        give_up(path);
}

/* Read with room enough, the sample is refused there, or with 0 accepted. */
static void check_read(const char *what, uint64_t number, uint64_t line,
                       uint64_t byte)
{
    memset(rows, 0, sizeof rows);
    struct abo_statement_answer a =
        abo_statement_read_rows(file.data, file.len, rows, ROWS);
    if (count_check(a.number == number && a.line == line && a.byte == byte &&
                    a.rows == (number == 0 ? ROWS : 0) && a.needed == 0))
        printf("failed: %s: number %llu line %llu byte %llu\n", what,
               (unsigned long long)a.number, (unsigned long long)a.line,
               (unsigned long long)a.byte);
}

static bool says(const uint8_t *bytes, size_t len, const char *text)
{
    return strlen(text) == len && memcmp(bytes, text, len) == 0;
}
#define SAYS(bytes, text) says((bytes), sizeof(bytes), (text))

static void check_head(void)
{
    const struct abo_statement_head *h = &rows[0].head;
    check(h->row == ABO_STATEMENT_HEAD && h->account.prefix == 500005 &&
              h->account.base == 2267180257,
          "000: the account is not 500005-2267180257");
    check(h->old_balance == 485720324 && h->new_balance == 485725525 &&
              h->debit == 0 && h->credit == 5201,
          "000: balances and turnovers are others");
    check(SAYS(h->name, "KLIENT TEST 9       ") &&
              SAYS(h->old_day, "261201") && SAYS(h->number, "001") &&
              SAYS(h->posted_day, "271201") && SAYS(h->rest, "              "),
          "000: the head's kept bytes are others");
}

static void check_movement(void)
{
    const struct abo_statement_movement *m = &rows[1].movement;
    check(m->row == ABO_STATEMENT_MOVEMENT && m->account.prefix == 500005 &&
              m->account.base == 2267180257 && m->other.prefix == 0 &&
              m->other.base == 1107340237,
          "000: the other account is not 1107340237");
    check(m->amount == 5201 && m->code == ABO_CODE_CREDIT && m->variable == 1,
          "000: amount, code or variable symbol are others");
    check(SAYS(m->document, "1227000000001") &&
              SAYS(m->constant, "0581000558") &&
              SAYS(m->specific, "0000000001") && SAYS(m->value_day, "000000") &&
              SAYS(m->text, "ADAMOVSKE STROJIRNY ") && m->change == '0' &&
              SAYS(m->kind, "1501") && SAYS(m->due_day, "271201"),
          "000: the movement's kept bytes are others");
}

static void check_written(void)
{
    uint8_t out[ROWS * ABO_RECORD_BYTES];
    struct abo_written w =
        abo_statement_write_rows(rows, ROWS, out, sizeof out);
    check(w.number == ABO_ACCEPTED && w.bytes == file.len &&
              memcmp(out, file.data, file.len) == 0,
          "000: it is not written back as it was");
}

static void mend(size_t at, const char *text)
{
    memcpy(file.data + at, text, strlen(text));
}

int main(int argc, char **argv)
{
    if (argc != 2) {
        fprintf(stderr, "statement_samples: name the folder of the samples.\n");
        return 2;
    }
    load(argv[1], "document_000.gpc");
    check_read("000", ABO_ACCEPTED, 0, 0);
    check_head();
    check_movement();
    check_written();
    load(argv[1], "document_000_av.gpc");
    check_read("000 with 078", ABO_BAD_RECORD, 3, 2 * ABO_RECORD_BYTES);
    load(argv[1], "document_003.gpc");
    check_read("003", ABO_BAD_TURNOVER, 1, 75);
    mend(75, "00000000000000");
    check_read("003, debit mended", ABO_BAD_TURNOVER, 1, 90);
    mend(90, "00000009870800");
    check_read("003, turnovers mended", ABO_BAD_BALANCE, 1, 60);
    mend(60, "00000021975300");
    check_read("003, mended", ABO_ACCEPTED, 0, 0);
    return last_line();
}
