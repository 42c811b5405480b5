#include "draw_draft.h"
#include "draft_rows.h"
#include "draws.h"
#include "limits.h"

#include <string.h>

static void draw_name(struct draft_plan *p)
{
    static const uint8_t wrong[] = {0, 9, 10, 13, 31, 127};
    static const size_t lengths[] = {0, 1, 19, 21, NAME_ROOM};
    struct draft *draft = p->draft;
    draft->name_len = ABO_NAME_BYTES;
    for (size_t i = 0; i < NAME_ROOM; i++)
        draft->name[i] = draw_name_byte(&p->dice);
    if (spoils(p, AT_NAME_MADE)) {
        size_t at = below(&p->dice, ABO_NAME_BYTES);
        if (one_in(&p->dice, 2))
            draft->name_len = PICK(&p->dice, lengths);
        else
            draft->name[at] = PICK(&p->dice, wrong);
    }
}

static void draw_header(struct draft_plan *p, unsigned files)
{
    static const uint64_t unreal[] = {0, 20180229, 20180431, 20181301, 20180001,
                                      20180100, 20180132, 20180230};
    struct draft *draft = p->draft;
    unsigned from, to;
    draft->date = day_at(below(&p->dice, DAYS));
    if (spoils(p, AT_DAY_MADE))
        draft->date = PICK(&p->dice, unreal);
    draft->date = limited(p, AT_DATE_MADE, draft->date, 20000101, 20991231);
    draw_name(p);
    draft->client = below(&p->dice, 10000000000);
    draft->client = limited(p, AT_CLIENT, draft->client, 0, 9999999999);
    draw_interval(&p->dice, p->sheet, files, &from, &to);
    if (spoils(p, AT_ORDER) && from > 0)
        to = from - 1;
    draft->from = limited(p, AT_FROM, from, 0, 999);
    draft->to = limited(p, AT_TO, to, 0, 999);
}

/* A row goes, comes twice or changes places; bytes go or come at the end. */
static void damage_rows(struct text *rows, struct dice *d)
{
    uint8_t row[ABO_ROW_BYTES], byte = (uint8_t)below(d, 4);
    size_t count = rows->len / ABO_ROW_BYTES, at = below(d, count) * ABO_ROW_BYTES;
    size_t to = below(d, count) * ABO_ROW_BYTES;
    memcpy(row, rows->data + at, ABO_ROW_BYTES);
    switch (below(d, 6)) {
    case 0:
        text_replace(rows, at, ABO_ROW_BYTES, NULL, 0);
        break;
    case 1:
        text_replace(rows, to, 0, row, ABO_ROW_BYTES);
        break;
    case 2:
        memmove(rows->data + at, rows->data + to, ABO_ROW_BYTES);
        memcpy(rows->data + to, row, ABO_ROW_BYTES);
        break;
    case 3: /* too short */
        rows->len = at;
        break;
    case 4: /* no whole row */
        rows->len -= between(d, 1, ABO_ROW_BYTES - 1);
        break;
    default:
        text_repeat(rows, byte, between(d, 1, 2 * ABO_ROW_BYTES));
    }
}

/* Words without any sense, many of them small. */
static void draw_garbage(struct text *rows, struct dice *d)
{
    size_t bytes = below(d, 8 * ABO_ROW_BYTES);
    text_clear(rows);
    while (rows->len < bytes)
        text_word(rows, one_in(d, 2) ? below(d, 4) : roll_bits(d));
    rows->len = bytes;
}

static void draw_faults(struct draft_plan *p)
{
    static const unsigned rates[] = {300, 100, 30};
    static const enum part days[] = {AT_DUE, AT_TERM};
    p->faults.aim = NO_PART;
    switch (below(&p->dice, 6)) {
    case 0:
        return;
    case 1:
        p->faults.rate = PICK(&p->dice, rates);
        return;
    case 2: /* texts have the most rules */
        p->faults.aim = AT_TEXT;
        p->faults.skip = (unsigned)below(&p->dice, 12);
        return;
    case 3: /* and days differ by kind and bank */
        p->faults.aim = PICK(&p->dice, days);
        p->faults.skip = (unsigned)below(&p->dice, 4);
        return;
    default:
        p->faults.aim = (enum part)below(&p->dice, ALL_PARTS);
        p->faults.skip = one_in(&p->dice, 2) ? 0 : (unsigned)below(&p->dice, 8);
    }
}

static void draw_rows(struct draft_plan *p, const struct shape *shape)
{
    text_clear(&p->draft->rows);
    for (unsigned f = 0; f < shape->files; f++) {
        put_account_file(p, f);
        for (unsigned g = 0; g < shape->groups; g++) {
            uint64_t amounts[MOST_DRAWN];
            unsigned items = shape->items;
            draw_amounts(&p->dice, p->sheet, amounts, &items);
            bool single = put_group_row(p);
            for (unsigned i = 0; i < items; i++)
                put_item_row(p, single, amounts[i]);
        }
    }
}

void draw_draft(struct draft *draft, uint64_t seed)
{
    struct draft_plan p = {.dice = {seed}, .draft = draft};
    struct dice *d = &p.dice;
    p.sheet = (unsigned)between(d, K, LAST_SHEET);
    p.today = draw_today(d);
    p.dirty = one_in(d, 2);
    draw_faults(&p);
    struct shape shape = draw_shape(d);
    draw_pool(&p.pool, &draft->texts, d);
    draw_header(&p, shape.files);
    draw_rows(&p, &shape);
    if (one_in(d, 12))
        damage_rows(&draft->rows, d);
    if (one_in(d, 30))
        draw_garbage(&draft->rows, d);
    draw_arguments(d, p.sheet, p.today, &draft->sheet, &draft->today);
}
