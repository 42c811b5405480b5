#include "retrace.h"
#include "days.h"

static void take_line(struct retrace *r)
{
    r->kind = line_kind(r->file, r->at);
    r->end = line_end(r->file, r->at);
}

void peer_retrace_start(struct retrace *r, struct bytes file,
                        const struct peer_sheet *sheet)
{
    *r = (struct retrace){.file = file, .sheet = sheet, .line = 1};
    take_line(r);
}

/* ---- fields ---- */

/* The first line's fields by place; each ends where the next begins, and the
   last with the line. */
static const size_t places[] = {
    [FIELD_CREATED] = 4, [FIELD_HOLDER] = 10, [FIELD_CLIENT] = 30,
    [FIELD_FROM] = 40,   [FIELD_TO] = 43,     [FIELD_REST] = 46,
};

static size_t end_of(const struct retrace *r, unsigned id, size_t at)
{
    if (id == FIELD_REST || id == FIELD_TEXT)
        return r->end;
    if (id > FIELD_REST)
        return field_end(r->file, at);
    return places[id + 1] < r->end ? places[id + 1] : r->end;
}

static bool take_field(const struct retrace *r, struct field *f, unsigned id,
                       size_t at)
{
    *f = (struct field){id, at, end_of(r, id, at)};
    return true;
}

/* Where spaces tell, fewer than three in the whole line mean no payer. */
static bool payer_stands(const struct retrace *r)
{
    size_t spaces = 0;
    if (!r->sheet->by_spaces)
        return true;
    for (size_t at = r->at; at < r->end; at++)
        spaces += r->file.data[at] == ' ';
    return spaces >= 3;
}

bool peer_first_field(const struct retrace *r, struct field *f)
{
    switch (r->kind) {
    case LINE_FIRST:
        return r->sheet->header &&
               take_field(r, f, FIELD_CREATED, places[FIELD_CREATED]);
    case LINE_FILE:
        return take_field(r, f, FIELD_KIND, r->at + 2);
    case LINE_GROUP:
        return take_field(r, f,
                          payer_stands(r) ? FIELD_GROUP_PAYER : FIELD_TOTAL,
                          r->at + 2);
    case LINE_ITEM:
        return take_field(r, f, r->single ? FIELD_PAYER : FIELD_PAYEE, r->at);
    default:
        return false;
    }
}

/* C alone: what is not 1 to 10 digits begins the text. */
static bool symbol_stands(const struct retrace *r, size_t at)
{
    size_t end = digit_run(r->file, at).end, digits = end - at;
    return r->sheet->tail != PEER_TAIL_AV_NP ||
           (digits >= 1 && digits <= 10 && field_ends(r->file, end));
}

bool peer_next_field(const struct retrace *r, struct field *f)
{
    unsigned next = f->id + 1;
    switch (f->id) {
    case FIELD_REST:
    case FIELD_BANK:
    case FIELD_DATE:
    case FIELD_TEXT:
        return false;
    default:
        break;
    }
    /* By place: a field that is cut short has none behind it. */
    if (f->id < FIELD_REST)
        return f->end == places[next] && take_field(r, f, next, f->end);
    if (f->end == r->end)
        return false;
    if (next == FIELD_SPECIFIC && !symbol_stands(r, f->end + 1))
        next = FIELD_TEXT;
    return take_field(r, f, next, f->end + 1);
}

bool peer_seek_field(const struct retrace *r, unsigned id, struct field *f)
{
    bool there = peer_first_field(r, f);
    while (there && f->id != id)
        there = peer_next_field(r, f);
    return there;
}

uint64_t peer_field_value(const struct retrace *r, const struct field *f)
{
    uint64_t value = 0;
    for (size_t at = f->at; at < f->end; at++) {
        unsigned digit = (unsigned)r->file.data[at] - '0';
        if (digit <= 9)
            value = value * 10 + digit;
    }
    return value;
}

uint64_t peer_field_date(const struct retrace *r, const struct field *f)
{
    uint64_t value = peer_field_value(r, f);
    return f->end - f->at == 8 ? value : date_of_short(value);
}

/* ---- lines ---- */

static void pass_first(struct retrace *r)
{
    struct field f;
    if (peer_seek_field(r, FIELD_FROM, &f))
        r->from = peer_field_value(r, &f);
    if (peer_seek_field(r, FIELD_TO, &f))
        r->to = peer_field_value(r, &f);
}

static void pass_file(struct retrace *r)
{
    struct field f;
    if (peer_seek_field(r, FIELD_KIND, &f))
        r->collects = sheet_collects(r->sheet, peer_field_value(r, &f));
    r->file_items = 0;
}

/* A payer of no value is one that is empty or of zeros. */
static void pass_group(struct retrace *r)
{
    struct field f;
    r->single = !peer_seek_field(r, FIELD_GROUP_PAYER, &f) ||
                peer_field_value(r, &f) == 0;
    if (peer_seek_field(r, FIELD_DATE, &f))
        r->date = peer_field_date(r, &f);
}

void peer_retrace_next(struct retrace *r)
{
    if (r->kind == LINE_FIRST)
        pass_first(r);
    else if (r->kind == LINE_FILE)
        pass_file(r);
    else if (r->kind == LINE_GROUP)
        pass_group(r);
    else if (r->kind == LINE_ITEM)
        r->file_items++;
    r->before = r->kind;
    r->at = next_line(r->file, r->end);
    r->line++;
    take_line(r);
}

uint64_t peer_sum_ahead(const struct retrace *r)
{
    struct retrace ahead = *r;
    struct field amount;
    uint64_t sum = 0;
    for (;;) {
        peer_retrace_next(&ahead);
        if (ahead.kind != LINE_ITEM)
            return sum;
        if (peer_seek_field(&ahead, FIELD_AMOUNT, &amount))
            sum += peer_field_value(&ahead, &amount);
    }
}
