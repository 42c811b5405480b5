#include "split.h"

/* Keeps one text.  Only C cuts; elsewhere one that is too long breaks the
   sheet. */
static void keep(struct split *s, size_t index, size_t from, size_t to,
                 bool cuts)
{
    size_t length = to - from;
    if (length > TEXT_BYTES) {
        if (cuts)
            s->cuts++;
        else
            s->fits = false;
        length = TEXT_BYTES;
    }
    if (length > 0) {
        s->place[index] = from;
        s->length[index] = length;
    }
}

/* S: the whole text is the first part. */
static void split_part(struct bytes file, size_t at, size_t end,
                       struct split *s)
{
    keep(s, 0, at, end, false);
    if (s->fits && memchr(file.data + at, '|', end - at) != NULL)
        s->fits = false;
}

/* The place of the first ` NP:` in the text from here on, or its end.  The
   colon is looked for, since spaces are many. */
static size_t name_mark(struct bytes text, size_t at)
{
    size_t from = at;
    for (;;) {
        const uint8_t *colon =
            memchr(text.data + from, ':', text.len - from);
        if (colon == NULL)
            return text.len;
        from = (size_t)(colon - text.data) + 1;
        if (from - at >= 4 && memcmp(colon - 3, " NP", 3) == 0)
            return from - 4;
    }
}

static void split_parts(struct bytes message, size_t from, bool cuts,
                        struct split *s)
{
    for (size_t part = 0; part < MOST_PARTS; part++) {
        const uint8_t *bar =
            memchr(message.data + from, '|', message.len - from);
        if (bar == NULL) {
            keep(s, part, from, message.len, cuts);
            return;
        }
        size_t to = (size_t)(bar - message.data);
        keep(s, part, from, to, cuts);
        from = to + 1;
    }
    s->fits = false; /* a fourth bar, so a fifth part */
}

/* C: the name is taken off first; bars behind its mark are its own. */
static void split_named(struct bytes text, size_t at, struct split *s)
{
    size_t mark = name_mark(text, at);
    if (mark != text.len)
        keep(s, MOST_PARTS, mark + 4, text.len, true);
    split_parts((struct bytes){text.data, mark}, at, true, s);
}

void peer_split(struct bytes file, size_t at, size_t end,
                const struct peer_sheet *sheet, struct split *out)
{
    enum peer_tail tail = sheet->tail;
    struct bytes text = {file.data, end};
    *out = (struct split){.fits = true};
    if (at == end)
        return;
    size_t message = starts_with(text, at, "AV:", 3) ? at + 3 : at;
    if (tail == PEER_TAIL_PART)
        split_part(file, at, end, out);
    else if (tail == PEER_TAIL_AV && message == at)
        out->fits = false;
    else if (tail == PEER_TAIL_AV)
        split_parts(text, message, false, out);
    else if (starts_with(text, at, "NP:", 3))
        keep(out, MOST_PARTS, at + 3, end, true);
    else
        split_named(text, message, out);
    /* One look at the whole text: there is no name where this is asked, and
       `AV:` and the bars are taken. */
    if (!sheet_takes_bytes(sheet, file.data + at, end - at))
        out->fits = false;
}
