/*
 * An order book over the library: a ledger of wages and invoices becomes the
 * file for a bank, is read back as that bank would read it, and is shown as a
 * table of what would be paid; on sheet K its numbers may be taken from the
 * register of the day and are marked there; later a statement says which of it
 * has left the account. `orderbook --help` prints how it is used and
 * the whole format of a ledger (orderbook/help.c); ledger/pond.txt is one.
 */
#include <errno.h>
#include <inttypes.h>
#include <stdbool.h>
#include <stdio.h>
#include <stdlib.h>
#include <string.h>

#include <abo.h>
#include "common/input.h"
#include "common/names.h"
#include "common/output.h"
#include "common/refusal.h"
#include "common/register_file.h"
#include "common/sheet_and_day.h"
#include "common/statement.h"
#include "common/sums.h"
#include "orderbook/arguments.h"
#include "orderbook/help.h"
#include "orderbook/ledger_take.h"
#include "orderbook/numbering.h"
#include "orderbook/paid.h"
#include "orderbook/table.h"
#include "orderbook/telling.h"

enum status { DONE = 0, REFUSED = 1, TROUBLE = 2 };

static const char program[] = "orderbook";

static enum status trouble(const char *name, const char *what,
                           const char *why)
{
    tell_fault(program, name, "Standard input", what, why);
    return TROUBLE;
}

/* ---- Reading ---- */

static void show_accepted(FILE *out, const struct abo_answer *a,
                          const union abo_row *rows, const uint8_t *file)
{
    show_table(out, rows, (size_t)a->rows, file);
    fputs("The bank accepts it: ", out);
    print_payments(out, ABO_ENGLISH, rows, (size_t)a->rows);
    fputs(", ", out);
    print_warnings(out, ABO_ENGLISH, a->warnings);
    fputs(".\n", out);
    note_utf8(out, ABO_ENGLISH, utf8_texts(rows, (size_t)a->rows, file));
}

/* Which of the payments have left, by the statement that was named. */
static enum status show_left(const struct arguments *a, FILE *out,
                             const union abo_row *rows, size_t count)
{
    struct statement s;
    enum status status = TROUBLE;
    if (take_statement(&s, program, a->paid)) {
        if (s.answer.number != ABO_ACCEPTED) {
            print_statement_refusal(stderr, a->paid, &s);
            status = REFUSED;
        } else if (show_paid(out, rows, count, &s)) {
            status = DONE;
        } else {
            trouble(a->paid, "cannot be compared",
                    "there is not enough memory for it");
        }
    }
    free_statement(&s);
    return status;
}

/* What is read against a register has its numbers marked in those bytes. */
static struct abo_answer read_into(const struct arguments *a,
                                   const struct input *file,
                                   struct register_file *reg,
                                   union abo_row *rows, size_t count)
{
    if (reg == NULL)
        return abo_read_rows(file->bytes, file->len, a->sheet, a->day, rows,
                             count);
    return abo_read_registered(file->bytes, file->len, a->sheet, a->day,
                               (uint8_t *)rows, count * sizeof *rows,
                               reg->lent.bytes, reg->lent.len);
}

/* Reads as the bank would, first with no rows to learn how many are needed,
 * and shows the table, or what a statement says of it. */
static enum status read_file(const struct arguments *a, const char *name,
                             const struct input *file,
                             struct register_file *reg, FILE *out,
                             uint64_t *warnings)
{
    struct abo_answer answer = read_into(a, file, reg, NULL, 0);
    union abo_row *rows = NULL;
    if (answer.number == ABO_NO_ROOM) {
        size_t count = (size_t)answer.needed;
        rows = calloc(count, sizeof *rows);
        if (rows == NULL)
            return trouble(name, "cannot be shown",
                           "there is not enough memory for its rows");
        answer = read_into(a, file, reg, rows, count);
    }
    enum status status = answer.number == ABO_ACCEPTED ? DONE : REFUSED;
    if (status != DONE)
        print_refusal(stderr, ABO_ENGLISH, name, file, a->sheet, a->day,
                      &answer, reg != NULL ? &reg->lent : NULL);
    else if (a->paid != NULL)
        status = show_left(a, out, rows, (size_t)answer.rows);
    else
        show_accepted(out, &answer, rows, file->bytes);
    free(rows);
    *warnings = answer.warnings;
    return status;
}

/* ---- Writing ---- */

static struct abo_written ask(const struct arguments *a,
                              const struct ledger *l, uint8_t *out,
                              size_t room)
{
    struct abo_header header = l->header;
    header.date = a->day;
    return abo_write_rows(l->rows, l->count, l->text.bytes, l->text.len,
                          &header, a->sheet, a->day, out, room);
}

/* The file is there by now. If its numbers cannot be kept, it is said how they
 * are marked by hand, since the next file would take the same ones. */
static enum status mark_numbers(const struct arguments *a,
                                const struct register_file *reg,
                                uint64_t marks, FILE *out)
{
    if (!keep_register(reg)) {
        fputs("orderbook: the file is written, but its numbers are not marked "
              "in ", stderr);
        put_name(stderr, reg->name);
        fputs(". Before another file is made that day, `abo check FILE --sheet "
              "K --day ", stderr);
        put_day(stderr, a->day);
        fputs(" --register REGISTER` has to mark them.\n", stderr);
        return TROUBLE;
    }
    fputs("Marked in ", out);
    put_name(out, reg->name);
    fprintf(out, ": %" PRIu64 "; ", marks);
    print_free(out, reg);
    fputs(".\n", out);
    return DONE;
}

/* Nothing is saved before it was read back: first the file, and then the
 * register, since a mark is for a file that is there. */
static enum status hand_over(const struct arguments *a, const struct ledger *l,
                             const struct input *file,
                             struct register_file *reg)
{
    FILE *out = to_standard(a) ? stderr : stdout;
    uint64_t warnings, before = reg != NULL ? register_marks(reg) : 0;
    enum status status =
        read_file(a, "the file that was made", file, reg, out, &warnings);
    if (status != DONE)
        return status;
    if (l->names_out > 0)
        fprintf(out, "The sheet has no place for names: %zu of them stay%s in "
                     "the ledger.\n", l->names_out,
                l->names_out == 1 ? "s" : "");
    if (!write_whole(program, a->out, file->bytes, file->len))
        return TROUBLE;
    fprintf(out, "Written: %zu bytes.\n", file->len);
    /* who keeps the table for later sees this at once */
    if (warnings > 0 && out != stderr) {
        fputs("orderbook: the bank accepts it with ", stderr);
        print_warnings(stderr, ABO_ENGLISH, warnings);
        fputs(".\n", stderr);
    }
    if (reg != NULL)
        return mark_numbers(a, reg, register_marks(reg) - before, out);
    if (a->reg != NULL)
        note_no_register(out, ABO_ENGLISH, a->sheet, a->reg);
    return DONE;
}

/* Asked with no room, the library refuses for a fault of the batch if there
 * is one, and else says how many bytes the file has. */
static enum status write_batch(const struct arguments *a,
                               const struct ledger *l,
                               struct register_file *reg)
{
    const struct order order = {a->from, a->sheet, a->day};
    struct input file = {NULL, 0};
    struct abo_written w = ask(a, l, NULL, 0);
    if (w.number == ABO_NO_ROOM) {
        file.len = (size_t)w.bytes;
        file.bytes = malloc(file.len);
        if (file.bytes == NULL)
            return trouble(a->from, "cannot become a file",
                           "there is not enough memory for it");
        w = ask(a, l, file.bytes, file.len);
    }
    enum status status = REFUSED;
    if (w.number == ABO_ACCEPTED)
        status = hand_over(a, l, &file, reg);
    else
        tell_unwritten(&order, l, w);
    free(file.bytes);
    return status;
}

/* The register is held from before its numbers are looked at until after they
 * are marked. */
static enum status write_numbered(const struct arguments *a, struct ledger *l)
{
    const struct order order = {a->from, a->sheet, a->day};
    struct register_file reg;
    enum status status = REFUSED;
    if (!hold_register(&reg, program, ABO_ENGLISH, a->reg))
        return TROUBLE;
    if (number_files(&order, l, &reg))
        status = write_batch(a, l, &reg);
    let_go_register(&reg);
    return status;
}

static enum status write_order(const struct arguments *a,
                               const struct input *in)
{
    const struct order order = {a->from, a->sheet, a->day};
    struct ledger l;
    enum status status = TROUBLE;
    if (!ledger_take(&l, in, a->encoding, a->sheet))
        tell_misread(&order, &l);
    else if (a->reg != NULL && a->sheet == ABO_SHEET_K)
        status = write_numbered(a, &l);
    else
        status = write_batch(a, &l, NULL);
    ledger_free(&l);
    return status;
}

/* ---- The whole ---- */

static enum status run(enum wish wish, const struct arguments *a)
{
    struct input in = {NULL, 0};
    uint64_t warnings;
    const char *name = strcmp(a->from, "-") == 0 ? "standard input" : a->from;
    enum status status = TROUBLE;
    if (read_whole(&in, program, a->from))
        status = wish == READ_FILE
                     ? read_file(a, name, &in, NULL, stdout, &warnings)
                     : write_order(a, &in);
    free(in.bytes);
    return status;
}

static enum status answer(char **words)
{
    struct arguments a;
    enum wish wish = take_arguments(&a, words);
    if (wish == MISTAKE)
        return TROUBLE;
    if (wish == HELP)
        print_help(stdout);
    else if (wish == VERSION)
        puts("orderbook " ABO_VERSION);
    else
        return run(wish, &a);
    return DONE;
}

int main(int argc, char **argv)
{
    guard_output();
    enum status status = answer(argv + (argc > 0));
    errno = 0;
    if ((fflush(stdout) != 0 || ferror(stdout)) && status == DONE) {
        tell_fault(program, NULL, "Standard output",
                   "could not be written whole",
                   errno != 0 ? strerror(errno) : "an earlier part was lost");
        status = TROUBLE;
    }
    return status;
}
