#include "numbered.h"
#include "days.h"
#include "draws.h"
#include "faults.h"
#include "limits.h"
#include "plain.h"

enum { ALL = 1000, MOST_FILES = 24 };

/* What can be wrong, in the order in which it is tested. */
enum number_part {
    OF_START, OF_CREATED, OF_NAME, OF_ORDER, OF_KIND, OF_DIGITS, OF_INTERVAL,
    OF_SERIES, OF_DIVIDER, OF_BANK, OF_TOTAL, OF_END,
    NUMBER_PARTS
};

/* A file on its way. */
struct plan_of_numbers {
    struct dice dice;
    struct faults faults;
    struct text *out;
    unsigned from, to;
    unsigned next, step; /* the next number, and how far the one behind it is */
    unsigned first;      /* the first one, which may come again */
};

static bool wrong(struct plan_of_numbers *p, enum number_part part)
{
    return falls_on(&p->faults, &p->dice, part);
}

static void put_first(struct plan_of_numbers *p)
{
    static const char *const dates[] = {"310218", "01011x", "0101", "000000"};
    struct text *t = p->out;
    text_words(t, wrong(p, OF_START) ? "UHL2" : "UHL1");
    if (wrong(p, OF_CREATED))
        text_words(t, PICK(&p->dice, dates));
    else
        text_number(t, short_day_at(draw_today(&p->dice)), 6);
    text_words(t, wrong(p, OF_NAME) ? "FIRMA\001              "
                                    : "FIRMA               ");
    text_words(t, "1234567890");
    bool turned = wrong(p, OF_ORDER) && p->from < p->to;
    text_number(t, turned ? p->to : p->from, 3);
    text_number(t, turned ? p->from : p->to, 3);
    text_words(t, "\n");
}

/* The first three digits. */
static unsigned draw_series(struct plan_of_numbers *p)
{
    unsigned number = p->next, outside = (p->to + 1) % ALL;
    if (wrong(p, OF_SERIES))
        return p->first;
    if (wrong(p, OF_INTERVAL))
        return one_in(&p->dice, 2) ? outside : (p->from + ALL - 1) % ALL;
    p->next = p->from + (number - p->from + p->step) % (p->to - p->from + 1);
    return number;
}

static void put_file_line(struct plan_of_numbers *p)
{
    static const char *const numbers[] = {"00100", "0010000", "00a000", ""};
    static const char *const dividers[] = {"\n", "  ", "", "x"};
    static const char *const banks[] = {"0300", "810", "08100", ""};
    struct text *t = p->out;
    text_words(t, wrong(p, OF_KIND) ? "1 1505 " : "1 1501 ");
    unsigned series = draw_series(p);
    if (wrong(p, OF_DIGITS))
        text_words(t, PICK(&p->dice, numbers));
    else
        text_number(t, series * 1000 + below(&p->dice, 1000), 6);
    text_words(t, wrong(p, OF_DIVIDER) ? PICK(&p->dice, dividers) : " ");
    text_words(t, wrong(p, OF_BANK) ? PICK(&p->dice, banks) : "8100");
    text_words(t, "\n");
}

static void put_file(struct plan_of_numbers *p)
{
    put_file_line(p);
    text_words(p->out, wrong(p, OF_TOTAL) ? "2 19 2 020118\n"
                                          : "2 19 1 020118\n");
    text_words(p->out, "19 1 0 03000558\n3 +\n");
    text_words(p->out, wrong(p, OF_END) ? "5 x\n" : "5 +\n");
}

/* None, one that is aimed at, or some. */
static void draw_faults(struct plan_of_numbers *p)
{
    static const unsigned rates[] = {120, 60, 20};
    struct dice *d = &p->dice;
    p->faults.aim = NO_PART;
    switch (below(d, 3)) {
    case 0:
        return;
    case 1:
        p->faults.aim = (unsigned)below(d, NUMBER_PARTS);
        p->faults.skip = p->faults.aim < OF_KIND ? 0 : (unsigned)below(d, 6);
        return;
    default:
        p->faults.rate = PICK(d, rates);
    }
}

/* A prime step goes through an interval of any width that it does not divide;
   where it does, numbers come again, as they may. */
void generate_numbered(struct made *made, uint64_t seed)
{
    static const unsigned steps[] = {1, 1, 1, 7, 31};
    struct plan_of_numbers p = {.dice = {seed}, .out = &made->file};
    struct dice *d = &p.dice;
    size_t files = one_in(d, 8) ? between(d, 1, MOST_FILES) : between(d, 1, 5);
    draw_interval(d, K, (unsigned)files, &p.from, &p.to);
    p.first = p.next = (unsigned)between(d, p.from, p.to);
    p.step = PICK(d, steps);
    draw_faults(&p);
    text_clear(&made->file);
    put_first(&p);
    while (files-- > 0)
        put_file(&p);
    made->sheet = K;
    made->today = PLAIN_TODAY;
}

void generate_for_register(struct made *made, uint64_t seed)
{
    switch (seed % 4) {
    case 0:
        generate(made, seed);
        return;
    case 1:
        generate_on(made, seed, K);
        return;
    default:
        generate_numbered(made, seed);
    }
}
