/*
 * A ledger of wages and invoices, and the batch that it becomes: rows for the
 * library, and for each field the bytes of the ledger that it came from.
 * help.c describes the format of a ledger.
 */
#ifndef ORDERBOOK_LEDGER_H
#define ORDERBOOK_LEDGER_H

#include <stdbool.h>
#include <stddef.h>
#include <stdint.h>

#include <abo.h>
#include "recode.h"

/* The header's fields are numbered from 1; the date is the command line's. */
enum { HEADER_FIELDS = ABO_HEADER_TO + 1, FAULT_ROOM = 512 };

struct span {
    size_t at, len;
};

struct ledger {
    struct recoded text; /* the rows' texts lie in its bytes too */
    bool names, firm; /* whether names of payees, and the firm's, are written */
    union abo_row *rows;
    struct span (*spans)[ABO_ROW_WORDS];
    size_t count, room;
    struct abo_header header; /* without its date */
    struct span head[HEADER_FIELDS];
    struct abo_account payer; /* of the groups that follow */
    struct span payer_span;
    bool payer_waits; /* no group has come behind the payer line yet */
    bool collects;    /* the last account file's kind takes money in */
    size_t names_out; /* how many names do not go into the file */
    uint64_t line;    /* the number of the line in hand, from 1 */
    size_t lines;     /* that are neither blank nor comments */
    char fault[FAULT_ROOM];
    struct span fault_span;
};

/* The line that starts at a place, without its end: CR LF, LF or CR, as in
 * files; and where the next one starts. */
struct span line_from(const struct ledger *l, size_t at, size_t *next);

/* Where the field of a row came from; row 0 is the header. A row that is
 * missing would have stood at the ledger's end. */
struct span ledger_span(const struct ledger *l, uint64_t row, uint64_t field);

/* The line that a place lies in, without its end, and its number from 1. Of
 * the ledger's end it is the last line that is not empty. */
struct span ledger_line(const struct ledger *l, size_t place,
                        uint64_t *number);

void ledger_free(struct ledger *l);

#endif
