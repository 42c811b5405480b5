/*
 * ABO (.kpc) payment batches under five sheets: 1 is K, 2 is S, 3 is C and 4 is
 * E of document 01, 5 is P of request W-201; and statements of records 074 and
 * 075 (request W-204).
 *
 * Days are numbers YYYYMMDD.  Rows are 24 little-endian 64-bit words each, in
 * statements 17, lent as bytes of any alignment.  A pointer may be NULL where
 * its length is 0.  A refusal changes none of the lent bytes.
 *
 * Word 21 of an item's row is the caller's own reference, below 2^32 (request
 * W-206).  Reading sets it to 0; writing tests its range and passes over it.
 *
 * A day's register (request W-207) is 17 words like those of rows, 136 bytes:
 * the creation date, then a bit for each number.  Number n is marked where bit
 * n % 64 of word 1 + n / 64 is set; the 24 bits of 1,000 to 1,023 are 0.  Lent
 * bytes behind these are neither looked at nor changed.
 *
 * Each file here is used by those above it only:
 *
 *   rewrite.c                                 the rewriting program
 *   explain.c                                 answers in words; the rewriting
 *   read.c, write.c                           the calls for batches
 *   read_statement.c, write_statement.c       the calls for statements
 *   findings.c, findings_text.c               the calls for findings
 *   register.c                                the calls for a day's register
 *   sentence; reason, warnings                findings in words; findings
 *   spelling; reason_field                    the same of one field
 *   pen.h; retrace                            words; a judged file again
 *   judge, fill; judge_batch                  passes over a file, over a batch
 *   judge_heads, judge_item; spell_batch      the lines of a file, of a batch
 *   judge_fields.h, split; batch.h            the parts of lines, of rows
 *   statement_sums.h                          a statement that is added up
 *   statement                                 its records and their rows
 *   internal.h                                accounts in statements
 *   account.h, lines.h                        accounts, and the kinds of lines
 *   register.h                                a register in lent bytes
 *   finding.h                                 what a finding says
 *   bytes.h, days.h, digits.h, header.h, sheet
 */
#ifndef PEER_H
#define PEER_H

#include <stddef.h>
#include <stdint.h>

#include "header.h"

/* number 0: rows filled and warnings; number 16: needed is the count of rows
   the file asks for; any other number: the line (from 1) and byte offset. */
struct peer_answer {
    uint64_t number, line, byte, rows, warnings, needed;
    struct peer_header header;
};

struct peer_answer peer_read(const uint8_t *file, size_t len, uint64_t sheet,
                             uint64_t today, uint8_t *rows, size_t rows_len);

/* The same against a day's register.  On K the header's date must be the
   register's (else 23) and each number unused (else 22); acceptance marks the
   first three digits of the file's numbers.  Other sheets do not look at it. */
struct peer_answer peer_read_registered(const uint8_t *file, size_t len,
                                        uint64_t sheet, uint64_t today,
                                        uint8_t *rows, size_t rows_len,
                                        uint8_t *reg, size_t reg_len);

/* number 0: what was asked for, or 0; number 16: value is the bytes needed;
   any other number: value is 0. */
struct peer_register_answer {
    uint64_t number, value;
};

/* Begins a day with nothing marked, whatever stood there: 2 for a day that is
   not real, then 16. */
struct peer_register_answer peer_register_start(uint64_t date, uint8_t *reg,
                                                size_t reg_len);

/* The lowest number that is free, 1,000 if none is, and how many are free.  23
   if the register is malformed. */
struct peer_register_answer peer_register_lowest(const uint8_t *reg,
                                                 size_t reg_len);
struct peer_register_answer peer_register_free(const uint8_t *reg,
                                               size_t reg_len);

/* Takes the mark off a number: 23, then 24 if it has none or is above 999. */
struct peer_register_answer peer_register_give_back(uint8_t *reg,
                                                    size_t reg_len, uint64_t n);

/* number 0: bytes written; number 16: bytes needed; numbers 20 and 21, and of
   statements 50 to 53: the row (0 is the header) and the field. */
struct peer_written {
    uint64_t number, row, field, bytes;
};

struct peer_written peer_write(const uint8_t *rows, size_t rows_len,
                               const uint8_t *texts, size_t texts_len,
                               uint64_t date, const uint8_t *name,
                               size_t name_len, uint64_t client, uint64_t from,
                               uint64_t to, uint64_t sheet, uint64_t today,
                               uint8_t *out, size_t out_len);

/* number 0 with the bytes written, or 16 with the bytes needed. */
struct peer_text {
    uint64_t number, bytes;
};

/* One line on how reading would answer: `refused N line L byte B` or
   `accepted rows R warnings W`, and LF. */
struct peer_text peer_explain(const uint8_t *file, size_t len, uint64_t sheet,
                              uint64_t today, uint8_t *out, size_t out_len);

/* number 0: findings filled, or 16: findings needed; refused is 1 if the sheet
   asked for refuses the file, and bit n - 1 of sheets says that sheet n accepts
   it that day.  With 1, 2 and 16 all else but needed is 0. */
struct peer_list {
    uint64_t number, refused, count, needed, sheets;
};

/* What is found in a file (request W-205): one refusal, or each warning in file
   order.  A finding is 8 little-endian 64-bit words, lent as bytes of any
   alignment: number (0 is a warning), cause, line, byte, length, field, least
   and most. */
struct peer_list peer_findings(const uint8_t *file, size_t len, uint64_t sheet,
                               uint64_t today, uint8_t *out, size_t out_len);

/* The same in words: how the sheet answers, a sentence for each finding, and a
   line for each sheet.  Numbers 1 and 2 have no text. */
struct peer_text peer_findings_text(const uint8_t *file, size_t len,
                                    uint64_t sheet, uint64_t today,
                                    uint8_t *out, size_t out_len);

/* The rewriting program on slices: a sheet letter, a space, today as DDMMRR,
   a line end and a file come in; the canonical file or a refused line goes
   out.  Takes about 110 KiB of stack for its rows. */
struct peer_text peer_rewrite(const uint8_t *in, size_t in_len, uint8_t *out,
                              size_t out_len);

/* number 0: rows filled; number 16: needed is the count of rows the file asks
   for; numbers 50 to 53: the record (from 1) and byte offset. */
struct peer_statement_answer {
    uint64_t number, line, byte, rows, needed;
};

struct peer_statement_answer peer_statement_read(const uint8_t *file,
                                                 size_t len, uint8_t *rows,
                                                 size_t rows_len);

struct peer_written peer_statement_write(const uint8_t *rows, size_t rows_len,
                                         uint8_t *out, size_t out_len);

#endif
