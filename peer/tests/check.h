/* Shared by the tests: counting, frames of files, and the calls with guards
   around every lent byte. */
#ifndef CHECK_H
#define CHECK_H

#include <stdbool.h>
#include <stddef.h>
#include <stdint.h>
#include <stdio.h>
#include <stdlib.h>
#include <string.h>

#include "../peer.h"

enum { K = 1, S = 2, C = 3, E = 4, P = 5 };
enum { WORDS = 24, ROW = 192 };
#define TODAY UINT64_C(20180101)

extern unsigned long test_passed, test_failed;
void test_count(bool ok, const char *file, int line, const char *what);
#define CHECK(what, ok) test_count((ok), __FILE__, __LINE__, (what))

/* The same numbers in each run. */
uint64_t draw(void);
uint64_t below(uint64_t limit);
bool one_in(uint64_t n);

/* ---- lent bytes ---- */

/* Room for so many bytes with GUARD bytes before and behind it, filled all
   over with the byte that untouched asks for. */
enum { GUARD = 64 };
uint8_t *lend(size_t len);
bool untouched(const uint8_t *bytes, size_t len);
/* A copy of exactly this size, so that a read outside is caught. */
uint8_t *copy_of(const void *bytes, size_t len);

/* ---- files ---- */

/* The frame of the readings: six lines ended by LF, each of which can be
   replaced.  The text lies in one of a few buffers used in turn. */
struct frame {
    unsigned sheet;
    const char *first, *file, *group, *item, *close, *end;
};
const char *frame_text(struct frame f);
#define PLAIN(sheet_) frame_text((struct frame){.sheet = (sheet_)})
#define FRAME(sheet_, ...) \
    frame_text((struct frame){.sheet = (sheet_), __VA_ARGS__})

/* A first line of 58 bytes: 1 January 2018, client 1234567890, 000 to 999. */
#define FIRST_46 "UHL1010118KLIENT TEST         1234567890000999"
#define FIRST_58 FIRST_46 "000000000000"

/* The offset of a byte in a line that counts from 1. */
size_t offset_of(const char *file, size_t len, uint64_t line, size_t plus);

/* ---- reading ---- */

/* Reads with guards and wants this refusal, by the explaining call too. */
void refused_bytes(const char *what, unsigned sheet, uint64_t today,
                   const void *file, size_t len, uint64_t number, uint64_t line,
                   uint64_t byte);
/* The same with the place given inside the line. */
void refused_on(const char *what, unsigned sheet, uint64_t today,
                const char *file, uint64_t number, uint64_t line, size_t plus);
void refused(const char *what, unsigned sheet, const char *file,
             uint64_t number, uint64_t line, size_t plus);

/* Reads with guards and wants acceptance with these counts.  The words of the
   rows are given back, decoded; they stay until the next reading. */
uint64_t (*accepted_bytes(const char *what, unsigned sheet, uint64_t today,
                          const void *file, size_t len, uint64_t rows,
                          uint64_t warnings))[WORDS];
uint64_t (*accepted_on(const char *what, unsigned sheet, uint64_t today,
                       const char *file, uint64_t rows,
                       uint64_t warnings))[WORDS];
uint64_t (*accepted(const char *what, unsigned sheet, const char *file,
                    uint64_t rows, uint64_t warnings))[WORDS];
/* The answer of the last accepted reading. */
extern struct peer_answer test_answer;

/* Does a text of a row (by its place's word) say this? */
bool says(const char *file, const uint64_t *row, size_t word, const char *text);

/* ---- writing ---- */

struct batch_in {
    uint64_t words[3200][WORDS];
    size_t rows, left_over;
    uint8_t texts[4096];
    size_t texts_len;
    uint64_t date, client, from, to;
    uint8_t name[20];
    size_t name_len;
};

/* The frame's batch: an account file, a collective group and an item. */
void batch_start(struct batch_in *b);
uint64_t *batch_row(struct batch_in *b, uint64_t kind);
void batch_file(struct batch_in *b, uint64_t kind, uint64_t number);
void batch_group(struct batch_in *b, uint64_t date, uint64_t prefix,
                 uint64_t base);
uint64_t *batch_item(struct batch_in *b);
/* Puts a text of a row (by its place's word). */
void batch_text(struct batch_in *b, uint64_t *row, size_t word,
                const char *text);

/* Writes with guards; the bytes stay until the next writing. */
struct peer_written batch_write(const struct batch_in *b, uint64_t sheet,
                                uint64_t today, size_t room);
extern uint8_t *test_out;
void not_written(const char *what, const struct batch_in *b, uint64_t sheet,
                 uint64_t number, uint64_t row, uint64_t field);
void written(const char *what, const struct batch_in *b, uint64_t sheet,
             const char *text);

/* ---- random files ---- */

/* A file that the sheet accepts today, in its canonical spelling. */
size_t draw_batch_file(unsigned sheet, uint8_t *out, size_t room);
/* One to three bytes changed, put in or left out, at times the end cut off; the
   file may grow by three bytes.  Gives back its length. */
size_t damage_batch_file(uint8_t *file, size_t len);

/* ---- the groups of tests ---- */

void test_document(void);
void test_readings(void);
void test_fields(void);
void test_texts(void);
void test_writing(void);
void test_rewriting(void);
void test_sheet_p(void);
void test_collections(void);
void test_collection_rows(void);
void test_references(void);
void test_samples(void);
void test_random(void);
void test_statements(void);
void test_random_statements(void);
void test_findings(void);
void test_warnings(void);
void test_damage(void);
void test_findings_text(void);
void test_random_findings(void);
void test_register(void);
void test_registered(void);
void test_random_registered(void);

#endif
