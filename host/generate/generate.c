#include "generate.h"
#include "damage.h"
#include "draws.h"
#include "field_account.h"
#include "fields.h"
#include "heads.h"
#include "tails.h"

/* Ends a line that began at a place; its end may be spoilt as well. */
static void end_line(struct plan *p, size_t start)
{
    static const char *const ends[] = {"\n", "\r\n", "\r"};
    static const char *const more[] = {" ", "  ", "x", "\t", " +", "\n\r",
                                       "\r\r\n", "\n\n", "\001"};
    struct text *t = p->out;
    if (spoils(p, AT_LINE_END)) {
        if (one_in(&p->dice, 2) && t->len > start)
            t->len = start + below(&p->dice, t->len - start);
        else
            text_words(t, PICK(&p->dice, more));
    }
    text_words(t, p->ends == ENDS_MIXED ? PICK(&p->dice, ends) : ends[p->ends]);
}

/* `3 +` or `5 +`. */
static void put_closing(struct plan *p, char digit)
{
    static const char *const aims[] = {"+", " +", "", " ", " x", "+x", " + ",
                                       " +x", "  +", "+ ", "++", " ++", "x",
                                       " -", "-"};
    bool tight = closes_tight(p->sheet) && one_in(&p->dice, 3);
    size_t start = p->out->len, mark;
    text_byte(p->out, (uint8_t)digit);
    mark = p->out->len;
    text_words(p->out, tight ? "+" : " +");
    if (spoils(p, AT_CLOSING))
        SPOIL(p, mark, aims);
    end_line(p, start);
}

static void put_item(struct plan *p, bool single, uint64_t amount)
{
    size_t start = p->out->len;
    if (single) {
        put_account(p);
        put_gap(p);
    }
    put_account(p);
    put_gap(p);
    put_amount(p, amount);
    put_gap(p);
    put_digits(p, 1, 10);
    put_gap(p);
    put_bank(p);
    put_tail(p);
    end_line(p, start);
}

static void put_group(struct plan *p, unsigned items)
{
    uint64_t amounts[MOST_DRAWN];
    bool single = one_in(&p->dice, 2);
    uint64_t sum = draw_amounts(&p->dice, p->sheet, amounts, &items);
    size_t start = p->out->len;
    put_group_line(p, single, sum);
    end_line(p, start);
    for (unsigned i = 0; i < items; i++)
        put_item(p, single, amounts[i]);
    put_closing(p, '3');
}

static void put_file(struct plan *p, unsigned place, const struct shape *s)
{
    size_t start = p->out->len;
    put_file_line(p, place);
    end_line(p, start);
    for (unsigned i = 0; i < s->groups; i++)
        put_group(p, s->items);
    put_closing(p, '5');
}

/* The last line may lack its end. */
static void drop_last_end(struct text *t)
{
    if (t->len > 0 && t->data[t->len - 1] == '\n')
        t->len--;
    if (t->len > 0 && t->data[t->len - 1] == '\r')
        t->len--;
}

/* Two files in six are right, two have one wrong part, one a wrong day, one has
   some wrong parts. */
static void draw_faults(struct plan *p)
{
    static const unsigned rates[] = {400, 150, 60, 25};
    static const enum part rich[] = {AT_ACCOUNT, AT_AMOUNT, AT_BANK, AT_DATE,
                                     AT_TOTAL, AT_TAIL};
    static const enum part days[] = {AT_DATE, AT_TERM};
    p->faults.aim = NO_PART;
    switch (below(&p->dice, 6)) {
    case 0:
    case 1:
        return;
    case 4: /* which differs by kind and bank */
        p->faults.aim = PICK(&p->dice, days);
        p->faults.skip = (unsigned)below(&p->dice, 4);
        return;
    case 2:
    case 3:
        p->faults.aim = one_in(&p->dice, 2) ? PICK(&p->dice, rich)
                                     : (enum part)below(&p->dice, ALL_PARTS);
        p->faults.skip = one_in(&p->dice, 2) ? 0 : (unsigned)below(&p->dice, 7);
        return;
    default:
        p->faults.rate = PICK(&p->dice, rates);
    }
}

/* The dice have been rolled for the sheet, or not at all. */
static void make_file(struct made *made, struct dice dice, unsigned sheet)
{
    struct plan p = {.dice = dice, .out = &made->file, .sheet = sheet};
    struct dice *d = &p.dice;
    p.today = draw_today(d);
    p.ends = (enum line_ends)below(d, 4);
    draw_faults(&p);
    struct shape shape = draw_shape(d);
    text_clear(&made->file);
    draw_interval(d, p.sheet, shape.files, &p.from, &p.to);
    p.downward = one_in(d, 2);
    put_first_line(&p);
    end_line(&p, 0);
    for (unsigned i = 0; i < shape.files; i++)
        put_file(&p, i, &shape);
    if (one_in(d, 4))
        drop_last_end(&made->file);
    if (one_in(d, 5))
        damage(&made->file, d);
    draw_arguments(d, p.sheet, p.today, &made->sheet, &made->today);
}

void generate(struct made *made, uint64_t seed)
{
    struct dice d = {seed};
    unsigned sheet = (unsigned)between(&d, K, LAST_SHEET);
    make_file(made, d, sheet);
}

void generate_on(struct made *made, uint64_t seed, unsigned sheet)
{
    make_file(made, (struct dice){seed}, sheet);
}
