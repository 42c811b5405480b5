/* Going over a file again that has been judged: where a line stands among the
   others, and where its fields are.  Nothing is judged here. */
#ifndef PEER_RETRACE_H
#define PEER_RETRACE_H

#include "finding.h"
#include "lines.h"
#include "sheet.h"

struct retrace {
    struct bytes file;
    const struct peer_sheet *sheet;

    /* The line in hand; at the file's end its kind is LINE_NONE. */
    size_t at, end;
    uint64_t line;
    unsigned kind, before; /* its kind, and that of the line before it or 0 */

    /* What the lines before it say. */
    uint64_t from, to;     /* the interval, where there is one */
    bool collects;         /* the account file's days are judged by item */
    uint64_t file_items;   /* so far in the account file */
    bool single;
    uint64_t date;         /* the group's, YYYYMMDD */
};

/* A field of the line in hand, up to the byte behind it. */
struct field {
    unsigned id;
    size_t at, end;
};

void peer_retrace_start(struct retrace *r, struct bytes file,
                        const struct peer_sheet *sheet);
/* From a line in which no fault was found to the one behind it. */
void peer_retrace_next(struct retrace *r);

/* From left to right through the line in hand, as far as it goes; a faulty
   line has the fields that its dividers and places give. */
bool peer_first_field(const struct retrace *r, struct field *f);
bool peer_next_field(const struct retrace *r, struct field *f);
bool peer_seek_field(const struct retrace *r, unsigned id, struct field *f);

/* A field's digits as a number; a comma or a dash is passed over. */
uint64_t peer_field_value(const struct retrace *r, const struct field *f);
/* A date's field as YYYYMMDD, real or not. */
uint64_t peer_field_date(const struct retrace *r, const struct field *f);

/* From a group's head on: the sum of its items. */
uint64_t peer_sum_ahead(const struct retrace *r);

#endif
