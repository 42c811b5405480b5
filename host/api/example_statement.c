/*
 * A statement on standard input: what left the account, payment by payment, and
 * whether the statement agrees with itself.
 */
#include <abo.h>
#include <abo_say.h>

#include <inttypes.h>
#include <stdio.h>
#include <stdlib.h>

enum { MOST = 1 << 20 };

/* Says where a refusal is: in which record, and in which of its fields. */
static void say_refused(const uint8_t *file, struct abo_statement_answer a)
{
    uint64_t start = ABO_RECORD_BYTES * (a.line - 1);
    uint64_t kind = a.byte > start && file[start + 2] == '4'
                        ? ABO_STATEMENT_HEAD
                        : ABO_STATEMENT_MOVEMENT;
    const struct abo_record_words *words = abo_say_record(kind, a.byte - start);
    fprintf(stderr, "Refused at record %" PRIu64 ": %s.\n", a.line,
            abo_say_number(a.number));
    if (words != NULL)
        fprintf(stderr, "Look at %s.\n", words->noun);
}

static void print_debit(const struct abo_statement_movement *m)
{
    printf("%" PRIu64 ".%02" PRIu64 " to %06" PRIu64 "-%010" PRIu64
           ", variable symbol %" PRIu64 "\n",
           m->amount / 100, m->amount % 100, m->other.prefix, m->other.base,
           m->variable);
}

int main(void)
{
    uint8_t *file = malloc(MOST);
    size_t len = file != NULL ? fread(file, 1, MOST, stdin) : 0;
    /* an accepted file has just so many rows; one more, so that it is never
       room of no bytes */
    size_t room = len / ABO_RECORD_BYTES + 1;
    union abo_statement_row *rows = calloc(room, sizeof *rows);
    int status = EXIT_FAILURE;
    if (file != NULL && rows != NULL) {
        struct abo_statement_answer a =
            abo_statement_read_rows(file, len, rows, room);
        if (a.number == ABO_ACCEPTED)
            status = EXIT_SUCCESS;
        else
            say_refused(file, a);
        for (size_t i = 0; i < a.rows; i++)
            if (rows[i].word[ABO_FIELD_ROW] == ABO_STATEMENT_MOVEMENT &&
                rows[i].movement.code == ABO_CODE_DEBIT)
                print_debit(&rows[i].movement);
    }
    free(rows);
    free(file);
    return status;
}
