/* The judge has told the number and the place.  All lines before that place
   are right, so it is enough to go there again and to look at one line. */
#include "reason.h"
#include "reason_field.h"

/* ---- lines ---- */

/* What is due hangs on the line before alone. */
static uint64_t due_behind(unsigned before)
{
    switch (before) {
    case LINE_FIRST:
        return DUE_FILE;
    case LINE_FILE:
        return DUE_GROUP;
    case LINE_GROUP:
        return DUE_ITEM;
    case LINE_ITEM:
        return DUE_ITEM_OR_END;
    case LINE_GROUP_END:
        return DUE_GROUP_OR_END;
    case LINE_FILE_END:
        return DUE_FILE_OR_END;
    default:
        return DUE_FIRST;
    }
}

static void many_reason(const struct retrace *r, struct peer_finding *out)
{
    if (r->kind == LINE_FILE)
        because(out, MANY_FILES, 0, MOST_FILES);
    else if (r->file_items == MOST_ITEMS)
        because(out, MANY_FILE_ITEMS, 0, MOST_ITEMS);
    else
        because(out, MANY_ALL_ITEMS, 0, r->sheet->all_items);
}

/* ---- places ---- */

static bool field_from(const struct retrace *r, size_t place, struct field *f)
{
    bool there = peer_first_field(r, f);
    while (there && f->at != place)
        there = peer_next_field(r, f);
    return there;
}

static bool field_up_to(const struct retrace *r, size_t place, struct field *f)
{
    bool there = peer_first_field(r, f);
    while (there && f->end != place)
        there = peer_next_field(r, f);
    return there;
}

/* Some fields are right when they are empty; then the divider behind them is
   meant, at the same place. */
static bool is_rightly_empty(const struct retrace *r, const struct field *f)
{
    if (f->at != f->end)
        return false;
    return f->id == FIELD_GROUP_PAYER
               ? !r->sheet->by_spaces
               : f->id == FIELD_SPECIFIC && r->sheet->tail == PEER_TAIL_PART;
}

static void divider_reason(const struct retrace *r, const struct field *f,
                           struct peer_finding *out)
{
    bool missing = f->end == r->end;
    because(out, missing ? BAD_DIVIDER_MISSING : BAD_DIVIDER_MORE, 0, 0);
    out->field = missing ? f->id + 1 : f->id;
    out->length = r->end - f->end;
}

static void line_reason(const struct retrace *r, size_t place, uint64_t today,
                        struct peer_finding *out)
{
    struct field f;
    if (out->number == 3 || out->number == 15) {
        out->length = r->end - r->at;
        if (out->number == 3)
            because(out, due_behind(r->before), 0, 0);
        else
            many_reason(r, out);
    } else if (r->kind == LINE_GROUP_END || r->kind == LINE_FILE_END) {
        because(out, BAD_CLOSING, 0, 0);
        out->field =
            r->kind == LINE_GROUP_END ? FIELD_GROUP_END : FIELD_FILE_END;
        out->length = r->end - place;
    } else if (field_from(r, place, &f) &&
               !(out->number == 4 && is_rightly_empty(r, &f))) {
        peer_field_reason(r, &f, today, out);
    } else if (field_up_to(r, place, &f)) {
        divider_reason(r, &f, out);
    }
}

void peer_reason(const struct judge *j, uint64_t today,
                 struct peer_finding *out)
{
    struct retrace r;
    *out = (struct peer_finding){
        .number = j->number, .line = j->fault_line, .byte = j->fault_at,
    };
    peer_retrace_start(&r, j->file, j->sheet);
    while (r.line != j->fault_line)
        peer_retrace_next(&r);
    line_reason(&r, j->fault_at, today, out);
}
