/* A differing total is known behind its group's items, but stands before their
   warnings.  So at a group's head its items are added up ahead, and each is
   gone over twice in all. */
#include "warnings.h"
#include "retrace.h"

struct teller {
    struct retrace r;
    uint64_t today;
    void (*take)(void *to, const struct peer_finding *f);
    void *to;
};

static void warn(const struct teller *t, uint64_t cause, const struct field *f,
                 uint64_t least, uint64_t most)
{
    const struct peer_finding found = {
        .cause = cause, .line = t->r.line, .byte = f->at,
        .length = f->end - f->at, .field = f->id, .least = least, .most = most,
    };
    t->take(t->to, &found);
}

/* Where the total binds, an accepted file's is the sum. */
static void warn_of_group(const struct teller *t)
{
    const struct retrace *r = &t->r;
    struct field f;
    if (!r->sheet->total_binds && peer_seek_field(r, FIELD_TOTAL, &f)) {
        uint64_t sum = peer_sum_ahead(r);
        if (peer_field_value(r, &f) != sum)
            warn(t, WARNS_TOTAL, &f, sum, sum);
    }
    if (r->sheet->past_warns && !r->collects &&
        peer_seek_field(r, FIELD_DATE, &f) &&
        peer_field_date(r, &f) < t->today)
        warn(t, WARNS_PAST, &f, t->today, 0);
}

static void warn_of_priority(const struct teller *t)
{
    struct field f;
    if (!peer_seek_field(&t->r, FIELD_BANK_FIELD, &f))
        return;
    uint64_t ninth = peer_field_value(&t->r, &f) / 100000000;
    if (ninth == 1 || ninth == 2)
        warn(t, WARNS_PRIORITY, &f, ninth, USUAL_PRIORITY);
}

static void warn_if_cut(const struct teller *t, uint64_t cause, unsigned id,
                        size_t at, size_t end)
{
    const struct field f = {.id = id, .at = at, .end = end};
    if (end - at > TEXT_BYTES)
        warn(t, cause, &f, 0, TEXT_BYTES);
}

/* Goes through the message up to the name's mark, if there is one, and gives
   back the name's place or the text's end. */
static size_t warn_of_parts(const struct teller *t, struct bytes text,
                            size_t at)
{
    unsigned id = FIELD_PARTS;
    size_t part = at;
    for (; at < text.len && !starts_with(text, at, " NP:", 4); at++)
        if (text.data[at] == '|') {
            warn_if_cut(t, WARNS_PART, id++, part, at);
            part = at + 1;
        }
    warn_if_cut(t, WARNS_PART, id, part, at);
    return at < text.len ? at + 4 : at;
}

static void warn_of_text(const struct teller *t)
{
    struct field f;
    if (!peer_seek_field(&t->r, FIELD_TEXT, &f))
        return;
    struct bytes text = {t->r.file.data, f.end};
    size_t name;
    if (starts_with(text, f.at, "NP:", 3))
        name = f.at + 3;
    else if (starts_with(text, f.at, "AV:", 3))
        name = warn_of_parts(t, text, f.at + 3);
    else
        name = warn_of_parts(t, text, f.at);
    warn_if_cut(t, WARNS_NAME, FIELD_NAME, name, f.end);
}

void peer_warnings(struct bytes file, const struct peer_sheet *sheet,
                   uint64_t today,
                   void (*take)(void *to, const struct peer_finding *f),
                   void *to)
{
    struct teller t = {.today = today, .take = take, .to = to};
    peer_retrace_start(&t.r, file, sheet);
    for (; t.r.kind != LINE_NONE; peer_retrace_next(&t.r)) {
        if (t.r.kind == LINE_GROUP)
            warn_of_group(&t);
        else if (t.r.kind == LINE_ITEM && sheet->priority)
            warn_of_priority(&t);
        else if (t.r.kind == LINE_ITEM && sheet->tail == PEER_TAIL_AV_NP)
            warn_of_text(&t);
    }
}
