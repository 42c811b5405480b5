/* A file that is being judged: what is known of it so far, how it is refused,
   and the steps over a field that several kinds of lines take. */
#ifndef PEER_JUDGE_FIELDS_H
#define PEER_JUDGE_FIELDS_H

#include "bytes.h"
#include "header.h"
#include "sheet.h"

struct judge {
    struct bytes file;
    const struct peer_sheet *sheet;
    uint64_t today, month_ahead; /* as day numbers */
    const struct bytes *reg;     /* a register or NULL; only K looks at it */

    size_t at;      /* the next byte to judge */
    uint64_t line;  /* its line, from 1 */

    uint64_t number, fault_line;
    size_t fault_at;

    uint64_t rows, warnings;
    uint64_t files, items;   /* so far in the whole file */
    uint64_t file_items;     /* so far in the account file */
    bool collects;           /* its days are judged for each item */
    struct peer_header header;
    uint64_t met[1000 / 64 + 1]; /* K: a bit for each three digits met */

    /* The group in hand. */
    bool single;
    uint64_t day; /* it is due, as a day number */
    uint64_t sum, total, total_line;
    size_t total_at;
};

/* Refuses the line in hand, at this place, and gives back false. */
static inline bool refuse(struct judge *j, uint64_t number, size_t at)
{
    j->number = number;
    j->fault_line = j->line;
    j->fault_at = at;
    return false;
}

/* Passes the space behind a field; there is a space or the line's end here. */
static inline bool pass_divider(struct judge *j)
{
    if (line_ends(j->file, j->at))
        return refuse(j, 4, j->at);
    j->at++;
    return true;
}

/* Wants the line to end behind its last field. */
static inline bool pass_last(struct judge *j)
{
    return line_ends(j->file, j->at) || refuse(j, 4, j->at);
}

/* A field of so many digits, whatever they say. */
static inline bool pass_digits(struct judge *j, size_t least, size_t most,
                               uint64_t *value)
{
    struct run run = digit_run(j->file, j->at);
    size_t digits = run.end - j->at;
    if (digits < least || digits > most || !field_ends(j->file, run.end))
        return refuse(j, 4, j->at);
    *value = run.value;
    j->at = run.end;
    return true;
}

/* An amount's bytes: digits, with a comma where the sheet has one.  Its limits
   are the caller's. */
static inline bool pass_amount(struct judge *j, size_t most, uint64_t *value)
{
    struct bytes f = j->file;
    struct run run = digit_run(f, j->at);
    if (j->sheet->comma && run.end < f.len && f.data[run.end] == ',') {
        struct run cents = digit_run(f, run.end + 1);
        if (run.end == j->at || cents.end - run.end != 3)
            return refuse(j, 4, j->at);
        run.value = run.value * 100 + cents.value;
        run.end = cents.end;
    }
    if (run.end == j->at || run.end - j->at > most || !field_ends(f, run.end))
        return refuse(j, 4, j->at);
    *value = run.value;
    j->at = run.end;
    return true;
}

#endif
