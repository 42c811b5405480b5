/* Shared by the tests of statements: a file that is built record by record, the
   rows of the last reading, and the two calls with guards. */
#ifndef CHECK_STATEMENTS_H
#define CHECK_STATEMENTS_H

#include "check.h"

enum { RECORD = 130, STATEMENT_ROW = 136 };
#define BELOW_14 INT64_C(99999999999999)
#define BELOW_12 UINT64_C(999999999999)

struct lent {
    uint8_t bytes[32768];
    size_t len;
};
extern struct lent test_file, test_rows;

/* Both begin with 19-19; a movement's other account is the first one of
   document 000's sample, and its variable symbol is 42. */
void file_start(void);
void file_head(int64_t old_balance, int64_t new_balance, int64_t debit,
               int64_t credit);
void file_move(uint64_t amount, char code);
/* One statement with movements of all four codes: five records. */
void file_frame(void);
/* Puts a text over the bytes of a record, which counts from 1. */
void file_put(uint64_t record, size_t place, const char *text);

/* Rows count from 1. */
uint64_t row_value(uint64_t row, size_t word);
void row_set(uint64_t row, size_t word, uint64_t value);

/* Reads the file and wants this refusal. */
void file_refused(const char *what, uint64_t number, uint64_t line,
                  uint64_t byte);
/* Reads the file and wants so many rows, which go to test_rows. */
void file_read(const char *what, uint64_t rows);
/* The same, and writing gives the very same file. */
void file_kept(const char *what, uint64_t rows);

/* Writes the rows and wants these bytes, or this refusal. */
void rows_written(const char *what, const struct lent *want);
void rows_refused(const char *what, uint64_t number, uint64_t row,
                  uint64_t field);

#endif
