/* The findings of a file in words, and what each sheet makes of it. */
#include "judge.h"
#include "peer.h"
#include "reason.h"
#include "sentence.h"
#include "warnings.h"

struct told {
    struct judge by[SHEETS]; /* the file as each sheet judges it */
    const struct judge *asked;
    struct worded words;
    struct pen pen;
};

static void tell_finding(void *to, const struct peer_finding *f)
{
    struct told *t = to;
    peer_sentence(&t->pen, &t->words, f);
}

static void put_letter(struct pen *p, const struct judge *j)
{
    pen_bytes(p, &j->sheet->letter, 1);
}

static void tell_refused(struct told *t)
{
    struct peer_finding f;
    pen_words(&t->pen, "Refused on sheet ");
    put_letter(&t->pen, t->asked);
    pen_words(&t->pen, ".\n");
    peer_reason(t->asked, t->words.today, &f);
    tell_finding(t, &f);
}

static void tell_accepted(struct told *t)
{
    const struct judge *j = t->asked;
    pen_words(&t->pen, "Accepted on sheet ");
    put_letter(&t->pen, j);
    pen_words(&t->pen, ", rows ");
    pen_number(&t->pen, j->rows);
    pen_words(&t->pen, ", warnings ");
    pen_number(&t->pen, j->warnings);
    pen_words(&t->pen, ".\n");
    peer_warnings(j->file, j->sheet, t->words.today, tell_finding, t);
}

static void tell_sheet(struct pen *p, const struct judge *j)
{
    pen_words(p, "Sheet ");
    put_letter(p, j);
    if (j->number == 0) {
        pen_words(p, ": accepted, warnings ");
        pen_number(p, j->warnings);
    } else {
        pen_words(p, ": refused (");
        pen_number(p, j->number);
        pen_words(p, ") at line ");
        pen_number(p, j->fault_line);
        pen_words(p, ", byte ");
        pen_number(p, j->fault_at);
    }
    pen_words(p, ".\n");
}

/* The whole text into the room, or only its length; gives back the length. */
static uint64_t tell(struct told *t, uint8_t *out)
{
    t->pen = (struct pen){out, 0};
    if (t->asked->number != 0)
        tell_refused(t);
    else
        tell_accepted(t);
    for (size_t i = 0; i < SHEETS; i++)
        tell_sheet(&t->pen, &t->by[i]);
    return t->pen.bytes;
}

struct peer_text peer_findings_text(const uint8_t *file, size_t len,
                                    uint64_t sheet, uint64_t today,
                                    uint8_t *out, size_t out_len)
{
    struct told t;
    if (peer_sheet_of(sheet) == NULL)
        return (struct peer_text){1, 0};
    for (size_t i = 0; i < SHEETS; i++)
        peer_judge(&t.by[i], file, len, i + 1, today, NULL);
    t.asked = &t.by[sheet - 1];
    if (t.asked->number == 2)
        return (struct peer_text){2, 0};
    t.words = (struct worded){{file, len}, t.asked->sheet, today};
    uint64_t bytes = tell(&t, NULL);
    if (out_len < bytes)
        return (struct peer_text){16, bytes};
    tell(&t, out);
    return (struct peer_text){0, bytes};
}
