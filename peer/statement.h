/* The records of statements and the rows that hold them (request W-204).  A
   record's read fields are the first eight words of its row, all of which are
   handled as words here; below zero is two's complement. */
#ifndef PEER_STATEMENT_H
#define PEER_STATEMENT_H

#include "bytes.h"

enum {
    RECORD_BYTES = 130, /* CR LF is counted */
    STATEMENT_ROW_BYTES = 136,
    STATEMENT_WORDS = 8
};

/* Word 0 of a row. */
enum { ROW_HEAD = 74, ROW_MOVEMENT = 75 };

/* Words of a row, which are also the numbers of its fields. */
enum {
    RECORD_ACCOUNT = 1,
    HEAD_OLD = 3,
    HEAD_NEW = 4,
    HEAD_DEBIT = 5,
    HEAD_CREDIT = 6,
    MOVEMENT_OTHER = 3,
    MOVEMENT_AMOUNT = 5,
    MOVEMENT_CODE = 6,
    MOVEMENT_VARIABLE = 7
};

/* Posting codes. */
enum {
    CODE_DEBIT = 1,
    CODE_CREDIT = 2,
    CODE_DEBIT_REVERSED = 4,
    CODE_CREDIT_REVERSED = 5
};

/* The kind of the record here, as in word 0; 0 if it is cut short, does not end
   with CR LF or is of another type. */
uint64_t peer_record_kind(struct bytes file, size_t at);

/* Reads the fields of a record of a known kind into eight words.  Gives back
   the place in the record of the first field or sign at fault, or 0, where the
   type stands. */
size_t peer_record_take(const uint8_t *record, uint64_t kind, uint64_t *words);

/* The first field of a row of a known kind that passes its digits or is no
   code, or 0. */
uint64_t peer_record_fault(const uint64_t *words);

/* The place in a record of the field that is read into this word. */
size_t peer_record_place(uint64_t kind, uint64_t word);

/* A row from a record that has been judged, and the record of a row that has
   been. */
void peer_record_fill(const uint8_t *record, uint64_t kind, uint8_t *row);
void peer_record_spell(const uint8_t *row, uint8_t *record);

/* The first eight words of a row. */
void peer_row_words(const uint8_t *row, uint64_t *words);

#endif
