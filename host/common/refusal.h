/* A refused file told to a person, in Czech or English: a sentence with its place and what was found there, the line with a caret, and what
   else the file lets one guess.  Languages are an enum abo_language. */
#ifndef HOST_COMMON_REFUSAL_H
#define HOST_COMMON_REFUSAL_H

#include <stdio.h>

#include <abo.h>
#include <abo_say.h>
#include "input.h"

/* Tells an answer of abo_read that is neither 0 nor 16, as
       refused at line 2, column 15, byte 74: the payer's bank: this bank is not the sheet's; found "8100"; allowed: 0800 (8).
   With `name` not NULL, the sentence begins with it as NAME:LINE:COLUMN.  `today` is the day that the file was judged on, and `reg` the register
   that it was read against by abo_read_registered; NULL if there was none. */
void print_refusal(FILE *to, uint64_t language, const char *name, const struct input *file,
                   uint64_t sheet, uint64_t today, const struct abo_answer *answer, const struct input *reg);

/* Tells a warning of an accepted file in the same way, in a line: warning at line 3, column 8, byte 31: ... */
void print_warning(FILE *to, uint64_t language, const char *name, const struct input *file,
                   uint64_t sheet, uint64_t today, const struct abo_finding *f);

/* How many message parts and names of the rows look like UTF-8; they lie in the file that was read. */
size_t utf8_texts(const union abo_row *rows, size_t count, const uint8_t *file);

/* A note where texts look like UTF-8, since the bank reads them as Windows-1250 and counts each of their bytes. */
void note_utf8(FILE *to, uint64_t language, size_t texts);

#endif
