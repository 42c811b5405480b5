/* A statement as the tool and the order book take it: read whole, or refused in words. */
#ifndef HOST_COMMON_STATEMENT_H
#define HOST_COMMON_STATEMENT_H

#include <stdbool.h>
#include <stdio.h>

#include <abo.h>
#include "input.h"

struct statement {
    struct input file;
    struct abo_statement_answer answer;
    union abo_statement_row *rows; /* answer.rows of them */
};

/* Reads a file and has the library judge it.  Where it cannot be read, or its rows have no room, says why on standard error in the
   program's name and gives back false. */
bool take_statement(struct statement *s, const char *program, const char *name);
void free_statement(struct statement *s);

/* Tells an answer that is neither 0 nor 16, as
       refused at record 2, column 61, byte 190: the posting code is "3", and 1, 2, 4 or 5 is allowed (51).
   and the record with a caret.  With `name` not NULL, the sentence begins with it as NAME:RECORD:COLUMN. */
void print_statement_refusal(FILE *to, const char *name, const struct statement *s);

/* What a movement does to the balance: a debit and a reversed credit take off. */
int64_t effect_of(const struct abo_statement_movement *m);

#endif
