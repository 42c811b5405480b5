/*
 * Reading, writing and explaining Czech ABO (.kpc) payment files for the bank sheets K, S, C, E and P, finding their lines, keeping the
 * numbers that a day's files have used, and reading and writing statements (GPC records 074 and 075): twelve calls, the rows that they take
 * and give, and the numbers that they return.
 * For C99 and later and for C++; link with libabo.a.
 *
 * Days.  Every day is a number YYYYMMDD: the 2nd of January 2018 is 20180102.  So is `today`, which the caller gives with each
 * call, because the library never asks the clock; it must be a real day of 2000 to 2099.
 *
 * Lent bytes.  A call works on bytes that the caller lends it, each slice a pointer and a count of bytes, and keeps none of
 * them when it returns.  A pointer may be NULL exactly where its count is 0.  Pointers need no alignment.  Bytes that a call
 * writes to must not overlap bytes that it reads.  Apart from that, any bytes and any numbers may be handed in.
 *
 * Refusals.  A call that returns another number than 0 has changed none of the lent bytes.  An accepted one has changed only
 * the rows, findings or bytes that it counts in its answer, and a register only in its own bytes; what is lent beyond them stays as it was.
 *
 * Byte order.  Rows are lent as bytes: words of 64 bits, each with its lowest byte first, whatever the machine; 24 of them, in
 * statements eight and then bytes of the record, eight in a finding and 17 in a register.  Where the machine's own order is the same, as on
 * x86-64, an array of `union abo_row`, `union abo_statement_row` or `struct abo_finding`, or a `struct abo_register`, is lent as it lies,
 * which abo_read_rows, abo_write_rows and their kin do:
 *
 *     union abo_row rows[1000];
 *     struct abo_answer a = abo_read_rows(file, len, ABO_SHEET_K, 20180101, rows, 1000);
 *
 * abo_say.h and abo_say.c, beside this file, have words for people, in Czech and in English: for numbers, fields and sheets; and
 * abo_tell.h and abo_tell.c whole sentences: for what is found in a file, and for rows that are not written.
 *
 * The calls have no state, so any number of threads may call them at once on bytes of their own.
 */
#ifndef ABO_H
#define ABO_H

#include <stddef.h>
#include <stdint.h>

#if defined(__BYTE_ORDER__) && defined(__ORDER_LITTLE_ENDIAN__)
#if __BYTE_ORDER__ != __ORDER_LITTLE_ENDIAN__
#error "union abo_row is right only where words are stored with their lowest byte first."
#endif
#endif

#ifdef __cplusplus
extern "C" {
#endif

/* ---- Version: the first part grows when a program must be changed to go on working, the second when something is added ---- */

#define ABO_VERSION_MAJOR 2
#define ABO_VERSION_MINOR 1
#define ABO_VERSION "2.1"

/* ---- Sheets: which bank's rules a file is judged by ---- */

enum abo_sheet {
    ABO_SHEET_K = 1, /* payer's bank 8100 */
    ABO_SHEET_S = 2, /* payer's bank 0800 */
    ABO_SHEET_C = 3, /* any payer's bank, written as 0300; has no header */
    ABO_SHEET_E = 4, /* payer's bank 6100 */
    ABO_SHEET_P = 5  /* payer's bank 0300: the edition before C, which has a header */
};

/* ---- Numbers returned ---- */

enum abo_number {
    ABO_ACCEPTED = 0,        /* the file was read, or written, whole */
    ABO_BAD_SHEET = 1,       /* the sheet is none of 1 to 5 */
    ABO_BAD_TODAY = 2,       /* today, or the date that a register is started for, is no real day of 2000 to 2099 */
    ABO_BAD_ORDER = 3,       /* another kind of line is due, the file ends early, or lines follow its end */
    ABO_BAD_FIELD = 4,       /* wrong bytes or length of a field, or a wrong divider */
    ABO_BAD_ACCOUNT = 5,     /* an account breaks the account rule */
    ABO_BAD_AMOUNT = 6,      /* an item's amount is zero or over its limit */
    ABO_BAD_KIND = 7,        /* the account file's kind is not on the sheet */
    ABO_BAD_PAYER_BANK = 8,  /* the payer's bank is not the sheet's */
    ABO_BAD_NUMBER = 9,      /* K: interval turned round, or a number outside it or used before */
    ABO_BAD_TOTAL = 10,      /* the total is not the sum (K, S, P), or the sum passes 14 digits */
    ABO_BAD_DAY = 11,        /* a day is not real, or not among the sheet's; a collection's (C, P) is judged at each item's bank */
    ABO_BAD_PAYEE_BANK = 12, /* the payee's bank is 0000 */
    ABO_BAD_DIGIT = 13,      /* ninth or tenth digit of the bank field is not allowed */
    ABO_BAD_TEXT = 14,       /* a text breaks the sheet: its start, parts, length, a bar on S, # or ~ on P */
    ABO_TOO_MANY = 15,       /* one item or account file more than a file may have */
    ABO_NO_ROOM = 16,        /* the lent room is too small; the answer says how much is needed */
    ABO_NOT_A_BATCH = 20,    /* writing: rows or header are no batch, whatever the sheet */
    ABO_NOT_CARRIED = 21,    /* writing: a batch, but no file of this sheet can carry it; a collection's day (C, P): at its item's bank */
    ABO_NUMBER_USED = 22,    /* K against a register: the account file's number was used that day */
    ABO_BAD_REGISTER = 23,   /* the register is for another date than the file's, or is not laid out as one */
    ABO_NOT_TAKEN = 24,      /* a number given back is not marked in the register, or above 999 */
    ABO_BAD_RECORD = 50,     /* statements: a record or row is missing, cut short, of another type, or a movement before any head */
    ABO_BAD_VALUE = 51,      /* statements: a field is not its digits, sign or code, or in writing passes its digits */
    ABO_BAD_TURNOVER = 52,   /* statements: a turnover is not what the statement's movements add up to */
    ABO_BAD_BALANCE = 53     /* statements: the new balance is not the old one less debit plus credit */
};

/* ---- Rows: the batch in order, an account file, its groups, behind each group its items ---- */

enum abo_size {
    ABO_ROW_WORDS = 24,       /* words of a row of a batch */
    ABO_ROW_BYTES = 192,      /* bytes of a row */
    ABO_PARTS = 4,            /* message parts of an item */
    ABO_TEXT_BYTES = 35,      /* most bytes of a message part, or of an item's name */
    ABO_NAME_BYTES = 20,      /* bytes of the header's name, always all of them */
    ABO_FINDING_BYTES = 64,   /* bytes of a finding */
    ABO_EXPLAIN_BYTES = 2048, /* room that is enough for what abo_explain says of any refused file */

    ABO_REGISTER_BYTES = 136,    /* bytes of a register of a day's numbers */
    ABO_REGISTER_NUMBERS = 1000, /* numbers that it keeps, from 0 on; as the lowest free number: none is free */

    ABO_RECORD_BYTES = 130,        /* bytes of a statement's record, its CR LF among them */
    ABO_STATEMENT_WORDS = 8,       /* words of a statement's row that are numbers; bytes of the record follow */
    ABO_STATEMENT_ROW_BYTES = 136  /* bytes of a statement's row */
};

enum abo_row_kind {
    ABO_ROW_FILE = 1,  /* an account file begins */
    ABO_ROW_GROUP = 2, /* a group of the account file above begins */
    ABO_ROW_ITEM = 3   /* an item of the group above */
};

enum abo_priority {
    ABO_PRIORITY_LEAST = 3, /* priorities go from here .. */
    ABO_PRIORITY_MOST = 9,  /* .. to here; only K carries another than the usual one */
    ABO_PRIORITY_USUAL = 5  /* what a file means that gives none */
};

/* Words of a row.  abo_write names a field by the number of its first word: an account by its prefix, a text by its place. */
enum abo_field {
    ABO_FIELD_ROW = 0, /* what the row is; as a fault: missing, of a kind not due, or one too many */

    ABO_FILE_KIND = 1,   /* account file: 1501 to 1504 */
    ABO_FILE_NUMBER = 2, /* account file: its number of six digits */

    ABO_GROUP_DUE = 1,          /* group: due date */
    ABO_GROUP_PAYER = 2,        /* group: payer's prefix; prefix and base 0: no payer, the group is single */
    ABO_GROUP_PAYER_PREFIX = 2, /* the same word */
    ABO_GROUP_PAYER_BASE = 3,   /* group: payer's base */

    ABO_ITEM_PAYER = 1,        /* item: payer's prefix; an item has a payer exactly in a single group */
    ABO_ITEM_PAYER_PREFIX = 1, /* the same word */
    ABO_ITEM_PAYER_BASE = 2,   /* item: payer's base */
    ABO_ITEM_PAYEE = 3,        /* item: payee's prefix */
    ABO_ITEM_PAYEE_PREFIX = 3, /* the same word */
    ABO_ITEM_PAYEE_BASE = 4,   /* item: payee's base */
    ABO_ITEM_BANK = 5,         /* item: payee's bank, 1 to 9999 */
    ABO_ITEM_AMOUNT = 6,       /* item: amount in haler, 1 to 99,999,999,999,999 */
    ABO_ITEM_VARIABLE = 7,     /* item: variable symbol, below 10^10 */
    ABO_ITEM_SPECIFIC = 8,     /* item: specific symbol, below 10^10 */
    ABO_ITEM_CONSTANT = 9,     /* item: constant symbol, below 10^4 */
    ABO_ITEM_PRIORITY = 10,    /* item: priority, 3 to 9 */
    ABO_ITEM_PART_1 = 11,      /* item: first message part, its place; its length is the next word */
    ABO_ITEM_PART_2 = 13,      /* item: second message part */
    ABO_ITEM_PART_3 = 15,      /* item: third message part */
    ABO_ITEM_PART_4 = 17,      /* item: fourth message part */
    ABO_ITEM_NAME = 19,        /* item: payee's name */
    ABO_ITEM_REFERENCE = 21    /* item: the caller's own reference, below 2^32; no file carries it */
};

/* Fields of the header, as abo_write numbers them where the row is 0. */
enum abo_header_field {
    ABO_HEADER_DATE = 1,   /* creation date */
    ABO_HEADER_NAME = 2,   /* name, 20 text bytes */
    ABO_HEADER_CLIENT = 3, /* client number, below 10^10 */
    ABO_HEADER_FROM = 4,   /* interval start, 0 to 999 */
    ABO_HEADER_TO = 5      /* interval end, 0 to 999 */
};

/* An account's number; both 0 where there is none.  The bank stands apart. */
struct abo_account {
    uint64_t prefix, base;
};

/* A text: where it begins and how many bytes it has, counted in the file that was read or the texts that are written. */
struct abo_place {
    uint64_t place, length;
};

struct abo_file_row {
    uint64_t row; /* ABO_ROW_FILE */
    uint64_t kind, number;
    uint64_t unused[21]; /* unused words are 0 when read, and not looked at when written */
};

struct abo_group_row {
    uint64_t row; /* ABO_ROW_GROUP */
    uint64_t due;
    struct abo_account payer;
    uint64_t unused[20];
};

struct abo_item_row {
    uint64_t row; /* ABO_ROW_ITEM */
    struct abo_account payer, payee;
    uint64_t bank, amount, variable, specific, constant, priority;
    struct abo_place part[ABO_PARTS];
    struct abo_place name;
    uint64_t reference; /* the caller's own, to find the item by again: 0 when read; when written only its range is looked at.
                           Up to version 1.6 this word was unused: what a program leaves there is now refused with 20 if it is
                           2^32 or more, so zero a row before filling it */
    uint64_t unused[2];
};

/* One row, by word number or by name.  `word[ABO_FIELD_ROW]` says which of the three views it has. */
union abo_row {
    uint64_t word[ABO_ROW_WORDS];
    struct abo_file_row file;
    struct abo_group_row group;
    struct abo_item_row item;
};

/* ---- Reading ---- */

/* The first line of a file.  On C, and on every refusal: zeros and a name of spaces. */
struct abo_header {
    uint64_t date, client, from, to;
    uint8_t name[20];
};

struct abo_answer {
    uint64_t number;   /* 0 to 16; of abo_read_registered 22 and 23 too, never 20, 21 or 24 */
    uint64_t line;     /* refused: line of the fault, from 1; 0 with 0, 1, 2 and 16 */
    uint64_t byte;     /* refused: its place in the file, from 0; 0 with 0, 1, 2 and 16 */
    uint64_t rows;     /* accepted: rows filled, else 0 */
    uint64_t warnings; /* accepted: warnings counted, else 0 */
    uint64_t needed;   /* with 16: rows (not bytes) needed, else 0 */
    struct abo_header header;
};

/* Reads a file into lent rows.  Texts are given as places in `file`, which must live as long as they are used.  `rows_len`
   counts bytes, of which only whole rows are used. */
struct abo_answer abo_read(const uint8_t *file, size_t len, uint64_t sheet,
                           uint64_t today, uint8_t *rows, size_t rows_len);

/* ---- The day's numbers: on K the first three digits of an account file's number serve once a day ---- */

/* A register of the numbers that were used on one creation date.  The caller keeps it, from file to file, and lends it as bytes; they are
   laid out so if there are ABO_REGISTER_BYTES or more, the date is a real day of 2000 to 2099, and no bit stands for a number above 999. */
struct abo_register {
    uint64_t date;        /* creation date */
    uint64_t numbers[16]; /* number n is marked where bit n % 64 of word n / 64 is set */
};

struct abo_register_answer {
    uint64_t number; /* 0, 2, 16, 23 or 24 */
    uint64_t value;  /* accepted: what was asked for; with 16: bytes needed; else 0 */
};

/* Starts a day: the first bytes lent become a register for that date with nothing marked, whatever they held.  Answers 2, 16 or 0. */
struct abo_register_answer abo_register_start(uint64_t date, uint8_t *reg,
                                              size_t reg_len);

/* The lowest free number, ABO_REGISTER_NUMBERS if none is; how many are free.  Answer 23 or 0, and change nothing: a number is marked when a
   file that has it is accepted. */
struct abo_register_answer abo_register_lowest(const uint8_t *reg,
                                               size_t reg_len);
struct abo_register_answer abo_register_free(const uint8_t *reg,
                                             size_t reg_len);

/* Gives a number back, as the bank does with a file that it threw out: it is free again.  Answers 23, 24 or 0. */
struct abo_register_answer abo_register_give_back(uint8_t *reg, size_t reg_len,
                                                  uint64_t number);

/* abo_read, and on K against a register: 23 at the header's date where the register is malformed or for another date, 22 at a number that is
   marked.  An accepted file's numbers are marked; a refusal, 16 too, marks none.  On other sheets the register is neither looked at nor
   changed, and its pointer may be NULL if its count is 0. */
struct abo_answer abo_read_registered(const uint8_t *file, size_t len,
                                      uint64_t sheet, uint64_t today,
                                      uint8_t *rows, size_t rows_len,
                                      uint8_t *reg, size_t reg_len);

/* The same into an array of rows, counted in rows, against a register as C has it. */
static inline struct abo_answer
abo_read_rows_registered(const uint8_t *file, size_t len, uint64_t sheet,
                         uint64_t today, union abo_row *rows, size_t count,
                         struct abo_register *reg)
{
    return abo_read_registered(file, len, sheet, today, (uint8_t *)rows,
                               count * sizeof *rows, (uint8_t *)reg,
                               sizeof *reg);
}

/* ---- Writing ---- */

struct abo_written {
    uint64_t number; /* 0, 1, 2, 16, 20 or 21; of statements 0, 16 or 50 to 53 */
    uint64_t row;    /* with 20, 21 and 50 to 53: the row, from 1, or 0 for the header, else 0 */
    uint64_t field;  /* with 20 and 21: enum abo_field, or enum abo_header_field where the row is 0; with 50 to 53:
                        enum abo_statement_field; else 0 */
    uint64_t bytes;  /* accepted: bytes written; with 16: bytes needed; else 0 */
};

/* Writes the batch that rows hold, their texts lying in `texts`, as a file in its canonical spelling.  The arguments from
   `date` to `to` are the header; on C they are not looked at.  `rows_len` counts bytes; bytes behind the last whole row are
   refused as a row of no known kind. */
struct abo_written abo_write(const uint8_t *rows, size_t rows_len,
                             const uint8_t *texts, size_t texts_len,
                             uint64_t date, const uint8_t *name,
                             size_t name_len, uint64_t client, uint64_t from,
                             uint64_t to, uint64_t sheet, uint64_t today,
                             uint8_t *out, size_t out_len);

/* ---- The same two calls on rows and a header as C has them ---- */

/* abo_read into an array of rows, counted in rows. */
static inline struct abo_answer abo_read_rows(const uint8_t *file, size_t len,
                                              uint64_t sheet, uint64_t today,
                                              union abo_row *rows, size_t count)
{
    return abo_read(file, len, sheet, today, (uint8_t *)rows,
                    count * sizeof *rows);
}

/* abo_write of an array of rows, counted in rows, with the header in one piece; on C `header` may be NULL. */
static inline struct abo_written
abo_write_rows(const union abo_row *rows, size_t count, const uint8_t *texts,
               size_t texts_len, const struct abo_header *header,
               uint64_t sheet, uint64_t today, uint8_t *out, size_t out_len)
{
    if (header == NULL)
        return abo_write((const uint8_t *)rows, count * sizeof *rows, texts,
                         texts_len, 0, NULL, 0, 0, 0, 0, sheet, today, out,
                         out_len);
    return abo_write((const uint8_t *)rows, count * sizeof *rows, texts,
                     texts_len, header->date, header->name,
                     sizeof header->name, header->client, header->from,
                     header->to, sheet, today, out, out_len);
}

/* Puts a name that a zero byte ends into a header, filled up with spaces.  Gives back 1, or 0 if it has more than 20 bytes; then
   the header is as it was. */
static inline int abo_set_name(struct abo_header *header, const char *name)
{
    size_t len = 0, i;
    while (len <= ABO_NAME_BYTES && name[len] != '\0')
        len++;
    if (len > ABO_NAME_BYTES)
        return 0;
    for (i = 0; i < ABO_NAME_BYTES; i++)
        header->name[i] = (uint8_t)(i < len ? name[i] : ' ');
    return 1;
}

/* ---- What is found in a file: why it is refused, or what it is warned of ---- */

/* Which field a finding is about.  A field that is missing is named too, and of one divider too many the field before it. */
enum abo_found_field {
    ABO_FOUND_LINE = 0, /* the line itself: of a kind that is not due, or one too many */

    ABO_FOUND_DATE = 1,   /* first line: creation date */
    ABO_FOUND_FIRM = 2,   /* first line: the firm's name */
    ABO_FOUND_CLIENT = 3, /* first line: client number */
    ABO_FOUND_FROM = 4,   /* first line: interval start */
    ABO_FOUND_TO = 5,     /* first line: interval end */
    ABO_FOUND_REST = 6,   /* first line: what follows */

    ABO_FOUND_KIND = 10,       /* account file: its kind */
    ABO_FOUND_NUMBER = 11,     /* account file: its number */
    ABO_FOUND_PAYER_BANK = 12, /* account file: the payer's bank */

    ABO_FOUND_GROUP_PAYER = 20, /* group: payer */
    ABO_FOUND_TOTAL = 21,       /* group: total */
    ABO_FOUND_DUE = 22,         /* group: due date */

    ABO_FOUND_PAYER = 30,    /* item: payer, in a single group */
    ABO_FOUND_PAYEE = 31,    /* item: payee */
    ABO_FOUND_AMOUNT = 32,   /* item: amount */
    ABO_FOUND_VARIABLE = 33, /* item: variable symbol */
    ABO_FOUND_BANK = 34,     /* item: bank field, the payee's bank and the constant symbol in one */
    ABO_FOUND_SPECIFIC = 35, /* item: specific symbol */
    ABO_FOUND_TEXT = 36,     /* item: text, all of it */
    ABO_FOUND_PART_1 = 37,   /* item: first message part */
    ABO_FOUND_PART_2 = 38,   /* item: second message part */
    ABO_FOUND_PART_3 = 39,   /* item: third message part */
    ABO_FOUND_PART_4 = 40,   /* item: fourth message part */
    ABO_FOUND_NAME = 41,     /* item: payee's name */

    ABO_FOUND_GROUP_END = 50, /* closing line of a group */
    ABO_FOUND_FILE_END = 51   /* closing line of an account file */
};

/* Why: one number of a refusal may have several causes, which are listed here in the order in which they are tested.  Behind some
   stands what `least` and `most` are; with the others both are 0. */
enum abo_cause {
    ABO_CAUSE_DUE_FIRST = 30,        /* a first line is due */
    ABO_CAUSE_DUE_FILE = 31,         /* an account file is due */
    ABO_CAUSE_DUE_GROUP = 32,        /* a group is due */
    ABO_CAUSE_DUE_ITEM = 33,         /* an item is due */
    ABO_CAUSE_DUE_ITEM_OR_END = 34,  /* an item or the group's end is due */
    ABO_CAUSE_DUE_GROUP_OR_END = 35, /* a group or the account file's end is due */
    ABO_CAUSE_DUE_FILE_OR_END = 36,  /* an account file or the end of the file is due */

    ABO_CAUSE_SPELLING = 40,        /* wrong bytes, or a wrong count of them */
    ABO_CAUSE_DIVIDER_MISSING = 41, /* the line ends where a space and this field are due */
    ABO_CAUSE_DIVIDER_MORE = 42,    /* something follows this field, where the line's end is due */
    ABO_CAUSE_CLOSING = 43,         /* a closing line is not spelled as one */

    ABO_CAUSE_PREFIX_SUM = 50, /* the weighted digits of an account's prefix */
    ABO_CAUSE_BASE_SUM = 51,   /* the weighted digits of its base */
    ABO_CAUSE_BASE_ZEROS = 52, /* a base with fewer than two digits that are not zero */

    ABO_CAUSE_AMOUNT_ZERO = 60, /* 1, the sheet's limit in haler */
    ABO_CAUSE_AMOUNT_OVER = 61, /* 1, the sheet's limit in haler */

    ABO_CAUSE_KIND = 70,       /* first kind, last kind */
    ABO_CAUSE_PAYER_BANK = 80, /* the sheet's bank, twice */

    ABO_CAUSE_INTERVAL_TURNED = 90, /* K: interval start, 999 */
    ABO_CAUSE_NUMBER_OUTSIDE = 91,  /* K: interval start, interval end */
    ABO_CAUSE_NUMBER_USED = 92,     /* K: interval start, interval end */

    ABO_CAUSE_TOTAL_DIFFERS = 100, /* the sum of the items in haler, twice */
    ABO_CAUSE_SUM_OVER = 101,      /* 0, the largest sum of 14 digits */

    ABO_CAUSE_DAY_NOT_REAL = 110,     /* 20000101, 20991231 */
    ABO_CAUSE_DAY_EARLY = 111,        /* today, or 0 where past days are taken; days ahead, or 0 where there is no limit */
    ABO_CAUSE_DAY_LATE = 112,         /* as with 111 */
    ABO_CAUSE_COLLECTION_EARLY = 113, /* today; 0 at the sheet's own bank, where today is taken, else 1 */
    ABO_CAUSE_COLLECTION_LATE = 114,  /* today; 1, for one month */

    ABO_CAUSE_PAYEE_BANK = 120,  /* 1, 9999 */
    ABO_CAUSE_NINTH_DIGIT = 130, /* the ninth digit of the bank field, counted from the right; tested behind the tenth */
    ABO_CAUSE_TENTH_DIGIT = 131, /* the tenth digit */

    ABO_CAUSE_TEXT_START = 140,  /* most parts, most bytes of a part */
    ABO_CAUSE_TEXT_PARTS = 141,  /* so too */
    ABO_CAUSE_TEXT_LENGTH = 142, /* so too */
    ABO_CAUSE_TEXT_BAR = 143,    /* S: so too */
    ABO_CAUSE_TEXT_MARKS = 144,  /* P, # or ~: so too */

    ABO_CAUSE_MANY_FILES = 150,      /* 0, most account files */
    ABO_CAUSE_MANY_FILE_ITEMS = 151, /* 0, most items of an account file */
    ABO_CAUSE_MANY_ITEMS = 152,      /* S: 0, most items of a file */

    /* Of abo_read_registered's refusals, for a program's words; abo_findings takes no register and never gives these. */
    ABO_CAUSE_NUMBER_TAKEN = 220,       /* K: the register's lowest free number (1,000: none), 999 */
    ABO_CAUSE_REGISTER_MALFORMED = 230, /* K: 0, 0 */
    ABO_CAUSE_REGISTER_DATE = 231,      /* K: the register's date, twice */

    ABO_CAUSE_WARNED_TOTAL = 1010,   /* warning: the sum of the items in haler, twice */
    ABO_CAUSE_WARNED_PAST = 1011,    /* warning: today, 0 */
    ABO_CAUSE_WARNED_PART = 1012,    /* warning: 0, the bytes that are kept */
    ABO_CAUSE_WARNED_NAME = 1013,    /* warning: 0, the bytes that are kept */
    ABO_CAUSE_WARNED_PRIORITY = 1014 /* warning: the digit, the priority that it is read as */
};

struct abo_finding {
    uint64_t number; /* of a refusal: 3 to 15, by abo_tell_registered also 22 and 23; 0 is a warning */
    uint64_t cause;  /* enum abo_cause */
    uint64_t line;   /* from 1, as in refusals */
    uint64_t byte;   /* its place in the file, from 0 */
    uint64_t length; /* how many bytes were found there; 0 where nothing is */
    uint64_t field;  /* enum abo_found_field */
    uint64_t least, most; /* what was allowed, by the cause */
};

struct abo_list {
    uint64_t number;  /* 0, 1, 2 or 16 */
    uint64_t refused; /* 1 if the file is refused on the sheet asked for */
    uint64_t count;   /* findings filled, else 0 */
    uint64_t needed;  /* with 16: findings (not bytes) needed, else 0 */
    uint64_t sheets;  /* bit n - 1: sheet n accepts the file that day; 0 with 1, 2 and 16 */
};

/* Lists what is found in a file: of a refused one the one finding that it is refused for, of an accepted one every warning, in the
   order of their places.  A refused file is no refusal of this call.  `out_len` counts bytes, of which only whole findings are used. */
struct abo_list abo_findings(const uint8_t *file, size_t len, uint64_t sheet,
                             uint64_t today, uint8_t *out, size_t out_len);

/* abo_findings into an array of findings, counted in findings. */
static inline struct abo_list abo_findings_of(const uint8_t *file, size_t len,
                                              uint64_t sheet, uint64_t today,
                                              struct abo_finding *out,
                                              size_t count)
{
    return abo_findings(file, len, sheet, today, (uint8_t *)out,
                        count * sizeof *out);
}

/* ---- Explaining ---- */

struct abo_text {
    uint64_t number; /* 0, 1, 2 or 16 */
    uint64_t bytes;  /* with 0: bytes written; with 16: bytes needed; else 0 */
};

/* The same list in English, for a log: printable ASCII in lines that LF ends, and no zero byte.  First how the sheet answers,
   `Refused on sheet K.` or `Accepted on sheet K, rows R, warnings W.`; then a sentence for each finding, with its line, byte and field,
   the rule, the bytes found and what was allowed; then a line for each sheet, whether it accepts the file that day. */
struct abo_text abo_explain(const uint8_t *file, size_t len, uint64_t sheet,
                            uint64_t today, uint8_t *out, size_t out_len);

/* ---- Finding the line of a refusal ---- */

struct abo_found {
    uint64_t found; /* 1 if the file has a line of that number, else 0 */
    uint64_t at;    /* found: where the line starts in the file, from 0; else 0 */
    uint64_t len;   /* found: its bytes without its end (CR LF, LF or CR); else 0 */
};

/* Finds the line of a number, counted from 1 as in refusals; the file's end counts as one line more, which is empty.  A refusal
   with 3 to 15, or of abo_read_registered with 22 or 23, always has its line found, and its byte lies in that line or right behind the
   line's last byte.  It is not for statements, whose records end by their length. */
struct abo_found abo_line(const uint8_t *file, size_t len, uint64_t line);

/* ---- Statements: GPC records 074, a statement's head, and 075, its movements ---- */

/* A file is one or more statements, each a head and its movements, if it has any.  A record is 128 bytes and CR LF and stands in one
   row.  Its numbers are words of the row; its other bytes, which have no rule, are kept in the row as they are. */
enum abo_statement_row_kind {
    ABO_STATEMENT_HEAD = 74,    /* record 074 */
    ABO_STATEMENT_MOVEMENT = 75 /* record 075, of the head above */
};

/* The code of a movement.  What is reversed is taken off again: debit turnover is the sum of 1 less that of 4, credit turnover the sum
   of 2 less that of 5, and the new balance is the old one less the debit turnover plus the credit turnover. */
enum abo_code {
    ABO_CODE_DEBIT = 1,
    ABO_CODE_CREDIT = 2,
    ABO_CODE_DEBIT_REVERSED = 4,
    ABO_CODE_CREDIT_REVERSED = 5
};

/* Words of a statement's row, which abo_statement_write names fields by: prefix and base of an account are told apart.  ABO_FIELD_ROW,
   as a fault: missing, cut short, of no such kind, or a movement before any head. */
enum abo_statement_field {
    ABO_HEAD_PREFIX = 1,      /* head: account's prefix, below 10^6 */
    ABO_HEAD_BASE = 2,        /* head: account's base, below 10^10 */
    ABO_HEAD_OLD_BALANCE = 3, /* head: old balance in haler, below 10^14 either way */
    ABO_HEAD_NEW_BALANCE = 4, /* head: new balance, so too */
    ABO_HEAD_DEBIT = 5,       /* head: debit turnover, so too */
    ABO_HEAD_CREDIT = 6,      /* head: credit turnover, so too */

    ABO_MOVEMENT_PREFIX = 1,       /* movement: account's prefix */
    ABO_MOVEMENT_BASE = 2,         /* movement: account's base; it need not be the head's */
    ABO_MOVEMENT_OTHER_PREFIX = 3, /* movement: the other account's prefix */
    ABO_MOVEMENT_OTHER_BASE = 4,   /* movement: the other account's base */
    ABO_MOVEMENT_AMOUNT = 5,       /* movement: amount in haler, below 10^12 */
    ABO_MOVEMENT_CODE = 6,         /* movement: enum abo_code */
    ABO_MOVEMENT_VARIABLE = 7      /* movement: variable symbol, below 10^10 */
};

/* Bytes are the bank's own, in its character set, and no zero byte ends them.  Days are DDMMRR. */
struct abo_statement_head {
    uint64_t row; /* ABO_STATEMENT_HEAD */
    struct abo_account account;
    int64_t old_balance, new_balance, debit, credit;
    uint64_t unused_word;                      /* what is unused is 0 when read, and not looked at when written */
    uint8_t name[20], old_day[6];              /* short name of the account; day of the old balance */
    uint8_t number[3], posted_day[6], rest[14]; /* the statement's number and day; what the bank adds */
    uint8_t unused[23];
};

struct abo_statement_movement {
    uint64_t row; /* ABO_STATEMENT_MOVEMENT */
    struct abo_account account, other;
    uint64_t amount, code, variable;
    uint8_t document[13];               /* number of the document */
    uint8_t constant[10], specific[10]; /* symbols; the first has the other account's bank in its digits 3 to 6 */
    uint8_t value_day[6], text[20];     /* day of the value; what the bank says besides, as the other's name */
    uint8_t change, kind[4], due_day[6]; /* code of a change; kind of data; day due, or taken off */
    uint8_t unused[2];
};

/* One row of a statement.  `word[ABO_FIELD_ROW]` says which of both views it has. */
union abo_statement_row {
    uint64_t word[ABO_STATEMENT_ROW_BYTES / 8];
    struct abo_statement_head head;
    struct abo_statement_movement movement;
};

struct abo_statement_answer {
    uint64_t number; /* 0, 16 or 50 to 53 */
    uint64_t line;   /* with 50 to 53: the record, from 1, else 0; it begins at byte ABO_RECORD_BYTES * (line - 1) */
    uint64_t byte;   /* with 50 to 53: place of the fault in the file, from 0, else 0 */
    uint64_t rows;   /* accepted: rows filled, one for each record, else 0 */
    uint64_t needed; /* with 16: rows (not bytes) needed, else 0 */
};

/* Reads statements into lent rows, which keep no place of the file.  `rows_len` counts bytes, of which only whole rows are used.  The
   byte of a refusal is the record's first with 50, the field's or sign's with 51, and with 52 and 53 that of the turnover or new balance
   in the statement's head. */
struct abo_statement_answer abo_statement_read(const uint8_t *file, size_t len,
                                               uint8_t *rows, size_t rows_len);

/* Writes the records that rows hold: their one spelling, ABO_RECORD_BYTES for each row.  `rows_len` counts bytes; bytes behind the
   last whole row are refused as a row that is cut short.  The answer's number is 0, 16 or 50 to 53, and of the last four each has a row and
   an enum abo_statement_field. */
struct abo_written abo_statement_write(const uint8_t *rows, size_t rows_len,
                                       uint8_t *out, size_t out_len);

/* The same two calls on an array of rows, counted in rows. */
static inline struct abo_statement_answer
abo_statement_read_rows(const uint8_t *file, size_t len,
                        union abo_statement_row *rows, size_t count)
{
    return abo_statement_read(file, len, (uint8_t *)rows, count * sizeof *rows);
}

static inline struct abo_written
abo_statement_write_rows(const union abo_statement_row *rows, size_t count,
                         uint8_t *out, size_t out_len)
{
    return abo_statement_write((const uint8_t *)rows, count * sizeof *rows, out,
                               out_len);
}

/* ---- The layout, held against the compiler's ---- */

#if defined(__cplusplus) && __cplusplus >= 201103L
#define ABO_HOLDS(name, condition) static_assert(condition, "abo.h: " #name)
#elif !defined(__cplusplus) && defined(__STDC_VERSION__) && __STDC_VERSION__ >= 201112L
#define ABO_HOLDS(name, condition) _Static_assert(condition, "abo.h: " #name)
#else
#define ABO_HOLDS(name, condition) typedef char abo_holds_##name[(condition) ? 1 : -1]
#endif
#define ABO_AT(view, field, number) (offsetof(struct view, field) == (number) * sizeof(uint64_t))

ABO_HOLDS(row, sizeof(union abo_row) == ABO_ROW_BYTES && ABO_ROW_BYTES == ABO_ROW_WORDS * sizeof(uint64_t));
ABO_HOLDS(file_row, sizeof(struct abo_file_row) == ABO_ROW_BYTES);
ABO_HOLDS(group_row, sizeof(struct abo_group_row) == ABO_ROW_BYTES);
ABO_HOLDS(item_row, sizeof(struct abo_item_row) == ABO_ROW_BYTES);
ABO_HOLDS(file_kind, ABO_AT(abo_file_row, kind, ABO_FILE_KIND));
ABO_HOLDS(file_number, ABO_AT(abo_file_row, number, ABO_FILE_NUMBER));
ABO_HOLDS(group_due, ABO_AT(abo_group_row, due, ABO_GROUP_DUE));
ABO_HOLDS(group_payer, ABO_AT(abo_group_row, payer, ABO_GROUP_PAYER));
ABO_HOLDS(item_payer, ABO_AT(abo_item_row, payer, ABO_ITEM_PAYER));
ABO_HOLDS(item_payee, ABO_AT(abo_item_row, payee, ABO_ITEM_PAYEE));
ABO_HOLDS(item_bank, ABO_AT(abo_item_row, bank, ABO_ITEM_BANK));
ABO_HOLDS(item_amount, ABO_AT(abo_item_row, amount, ABO_ITEM_AMOUNT));
ABO_HOLDS(item_variable, ABO_AT(abo_item_row, variable, ABO_ITEM_VARIABLE));
ABO_HOLDS(item_specific, ABO_AT(abo_item_row, specific, ABO_ITEM_SPECIFIC));
ABO_HOLDS(item_constant, ABO_AT(abo_item_row, constant, ABO_ITEM_CONSTANT));
ABO_HOLDS(item_priority, ABO_AT(abo_item_row, priority, ABO_ITEM_PRIORITY));
ABO_HOLDS(item_part, ABO_AT(abo_item_row, part, ABO_ITEM_PART_1));
ABO_HOLDS(item_name, ABO_AT(abo_item_row, name, ABO_ITEM_NAME));
ABO_HOLDS(item_reference, ABO_AT(abo_item_row, reference, ABO_ITEM_REFERENCE));
ABO_HOLDS(statement_row, sizeof(union abo_statement_row) == ABO_STATEMENT_ROW_BYTES);
ABO_HOLDS(statement_head, sizeof(struct abo_statement_head) == ABO_STATEMENT_ROW_BYTES);
ABO_HOLDS(statement_movement, sizeof(struct abo_statement_movement) == ABO_STATEMENT_ROW_BYTES);
ABO_HOLDS(head_account, ABO_AT(abo_statement_head, account, ABO_HEAD_PREFIX));
ABO_HOLDS(head_old_balance, ABO_AT(abo_statement_head, old_balance, ABO_HEAD_OLD_BALANCE));
ABO_HOLDS(head_new_balance, ABO_AT(abo_statement_head, new_balance, ABO_HEAD_NEW_BALANCE));
ABO_HOLDS(head_debit, ABO_AT(abo_statement_head, debit, ABO_HEAD_DEBIT));
ABO_HOLDS(head_credit, ABO_AT(abo_statement_head, credit, ABO_HEAD_CREDIT));
ABO_HOLDS(head_kept, ABO_AT(abo_statement_head, name, ABO_STATEMENT_WORDS));
ABO_HOLDS(head_old_day, offsetof(struct abo_statement_head, old_day) == 84);
ABO_HOLDS(head_number, offsetof(struct abo_statement_head, number) == 90);
ABO_HOLDS(head_posted_day, offsetof(struct abo_statement_head, posted_day) == 93);
ABO_HOLDS(head_rest, offsetof(struct abo_statement_head, rest) == 99);
ABO_HOLDS(head_unused, offsetof(struct abo_statement_head, unused) == 113);
ABO_HOLDS(movement_account, ABO_AT(abo_statement_movement, account, ABO_MOVEMENT_PREFIX));
ABO_HOLDS(movement_other, ABO_AT(abo_statement_movement, other, ABO_MOVEMENT_OTHER_PREFIX));
ABO_HOLDS(movement_amount, ABO_AT(abo_statement_movement, amount, ABO_MOVEMENT_AMOUNT));
ABO_HOLDS(movement_code, ABO_AT(abo_statement_movement, code, ABO_MOVEMENT_CODE));
ABO_HOLDS(movement_variable, ABO_AT(abo_statement_movement, variable, ABO_MOVEMENT_VARIABLE));
ABO_HOLDS(movement_kept, ABO_AT(abo_statement_movement, document, ABO_STATEMENT_WORDS));
ABO_HOLDS(movement_constant, offsetof(struct abo_statement_movement, constant) == 77);
ABO_HOLDS(movement_specific, offsetof(struct abo_statement_movement, specific) == 87);
ABO_HOLDS(movement_value_day, offsetof(struct abo_statement_movement, value_day) == 97);
ABO_HOLDS(movement_text, offsetof(struct abo_statement_movement, text) == 103);
ABO_HOLDS(movement_change, offsetof(struct abo_statement_movement, change) == 123);
ABO_HOLDS(movement_kind, offsetof(struct abo_statement_movement, kind) == 124);
ABO_HOLDS(movement_due_day, offsetof(struct abo_statement_movement, due_day) == 128);
ABO_HOLDS(movement_unused, offsetof(struct abo_statement_movement, unused) == 134);
ABO_HOLDS(finding, sizeof(struct abo_finding) == ABO_FINDING_BYTES);
ABO_HOLDS(finding_number, ABO_AT(abo_finding, number, 0));
ABO_HOLDS(finding_cause, ABO_AT(abo_finding, cause, 1));
ABO_HOLDS(finding_line, ABO_AT(abo_finding, line, 2));
ABO_HOLDS(finding_byte, ABO_AT(abo_finding, byte, 3));
ABO_HOLDS(finding_length, ABO_AT(abo_finding, length, 4));
ABO_HOLDS(finding_field, ABO_AT(abo_finding, field, 5));
ABO_HOLDS(finding_least, ABO_AT(abo_finding, least, 6));
ABO_HOLDS(finding_most, ABO_AT(abo_finding, most, 7));
ABO_HOLDS(header, sizeof(struct abo_header) == 56 && offsetof(struct abo_header, name) == 32);
ABO_HOLDS(answer, sizeof(struct abo_answer) == 104 && offsetof(struct abo_answer, header) == 48);
ABO_HOLDS(register, sizeof(struct abo_register) == ABO_REGISTER_BYTES);
ABO_HOLDS(register_numbers, ABO_AT(abo_register, numbers, 1));
ABO_HOLDS(register_answer, sizeof(struct abo_register_answer) == 16);
ABO_HOLDS(written, sizeof(struct abo_written) == 32);
ABO_HOLDS(list, sizeof(struct abo_list) == 40 && offsetof(struct abo_list, sheets) == 32);
ABO_HOLDS(text, sizeof(struct abo_text) == 16);
ABO_HOLDS(found, sizeof(struct abo_found) == 24);
ABO_HOLDS(statement_answer, sizeof(struct abo_statement_answer) == 40);

#undef ABO_AT
#undef ABO_HOLDS

#ifdef __cplusplus
}
#endif

#endif
