#include "draft_rows.h"
#include "accounts.h"
#include "draws.h"
#include "limits.h"

static void put_row(struct draft_plan *p, const uint64_t *words, size_t used)
{
    struct text *rows = &p->draft->rows;
    text_word(rows, limited(p, AT_ROW, words[0], 1, 3));
    for (size_t i = 1; i < ABO_ROW_WORDS; i++)
        text_word(rows, i < used ? words[i] : p->dirty ? roll(&p->dice) : 0);
}

static void draw_account_words(struct draft_plan *p, enum part part, bool none,
                               uint64_t *words)
{
    static const struct account_value wrong[] = {
        {0, 0}, {0, 9}, {0, 10}, {0, 100}, {19, 0}, {1, 19}, {19, 18}, {18, 19},
        {0, 1234567890}, {1000000, 19}, {1900000, 19}, {19, 10000000000},
        {19, 100000000019}, {0, 19 + 10000000000}, {UINT64_MAX, 19},
        {19, UINT64_MAX}, {0, UINT64_MAX}, {UINT64_MAX, UINT64_MAX},
        {0, 19 + (UINT64_C(1) << 32)}, {19 + (UINT64_C(1) << 32), 19},
    };
    struct account_value a = {0, 0};
    if (!none)
        a = draw_account(&p->dice);
    if (spoils(p, part)) {
        switch (below(&p->dice, 4)) {
        case 0: /* a digit off */
            a.base += 1;
            break;
        case 1:
            a.prefix += 1;
            break;
        case 2:
            a = draw_account(&p->dice);
            break;
        default:
            a = PICK(&p->dice, wrong);
        }
    }
    words[0] = a.prefix;
    words[1] = a.base;
}

void put_account_file(struct draft_plan *p, unsigned place)
{
    uint64_t words[3] = {1};
    uint64_t last = 1500 + kinds_of(p->sheet);
    uint64_t three = p->draft->from + place;
    words[1] = draw_kind(&p->dice, p->sheet);
    words[1] = limited(p, AT_KIND, words[1], PAYMENTS,
                       one_in(&p->dice, 2) ? last : 1504);
    p->each = judges_each(p->sheet, words[1]);
    if (p->sheet != K) {
        three = below(&p->dice, 1000);
    } else if (spoils(p, AT_NUMBER)) { /* came before, or not in the interval */
        uint64_t earlier = below(&p->dice, place + 1);
        const uint64_t wrong[] = {p->draft->from + earlier, p->draft->from - 1,
                                  p->draft->to + 1, p->draft->to, 0, 999};
        three = PICK(&p->dice, wrong) % 1000;
    }
    words[2] = three * 1000 + below(&p->dice, 1000);
    words[2] = limited(p, AT_NUMBER, words[2], 0, 999999);
    put_row(p, words, 3);
}

bool put_group_row(struct draft_plan *p)
{
    static const uint64_t wrong[] = {0, 20180100, 20180229, 20181301, 20180431,
                                     19991231, 21000101, 21000229, 20180132,
                                     UINT64_MAX, 180102, 20118};
    uint64_t words[4] = {2};
    struct dice *d = &p->dice;
    bool single = one_in(d, 2);
    words[1] = day_at(p->each && aims_at(&p->faults, AT_TERM)
                          ? p->today
                          : draw_due_day(d, p->sheet, p->each, p->today));
    if (spoils(p, AT_DUE))
        words[1] = !one_in(d, 3)
                       ? day_at(draw_near_day(d, p->sheet, p->each, p->today))
                   : one_in(d, 2) ? PICK(d, wrong)
                                  : words[1] + (UINT64_C(1) << 32);
    p->due_today = p->each && words[1] == day_at(p->today);
    draw_account_words(p, AT_GROUP_PAYER, single, words + 2);
    put_row(p, words, 4);
    return words[2] == 0 && words[3] == 0;
}

/* Four parts and a name, as far as the sheet carries them. */
static void draw_texts(struct draft_plan *p, uint64_t *words)
{
    for (size_t i = 0; i < 5; i++) {
        bool carried = i == 0 || (i == 4 ? p->sheet == C : p->sheet != S);
        struct span s = {0, 0};
        if (carried && !one_in(&p->dice, 3))
            s = draw_span(&p->pool, &p->dice);
        if (spoils(p, AT_TEXT))
            s = one_in(&p->dice, 4) ? draw_span(&p->pool, &p->dice)
                                    : draw_wrong_span(&p->pool, &p->dice);
        words[2 * i] = s.place;
        words[2 * i + 1] = limited(p, AT_LENGTH, s.length, 0, 35);
    }
}

/* Both kinds of banks stand in a group, unless it is due today. */
static uint64_t draw_bank_word(struct draft_plan *p)
{
    if (!p->each)
        return draw_bank(&p->dice);
    bool own = p->due_today ? !spoils(p, AT_TERM) : one_in(&p->dice, 2);
    return draw_own_or_other(&p->dice, p->sheet, own);
}

/* What the caller keeps there: nothing, as behind reading, a small number, one
   at the limit, or any below it. */
static uint64_t draw_reference(struct draft_plan *p)
{
    static const uint64_t some[] = {0, 0, 1, 2, 1000, UINT32_MAX - 1,
                                    UINT32_MAX};
    uint64_t reference = one_in(&p->dice, 2)
                             ? PICK(&p->dice, some)
                             : below(&p->dice, UINT64_C(1) << 32);
    return limited(p, AT_REFERENCE, reference, 0, UINT32_MAX);
}

void put_item_row(struct draft_plan *p, bool single, uint64_t amount)
{
    static const uint64_t symbols[] = {0, 0, 1, 9999999999, 1234567890};
    uint64_t words[ABO_ITEM_REFERENCE + 1] = {3}, most = most_of_item(p->sheet);
    struct dice *d = &p->dice;
    draw_account_words(p, AT_PAYER, !single, words + 1);
    draw_account_words(p, AT_PAYEE, false, words + 3);
    words[5] = limited(p, AT_BANK, draw_bank_word(p), 1, 9999);
    words[6] = limited(p, AT_AMOUNT, amount, 1, one_in(d, 2) ? most : MOST_SUM);
    words[7] = one_in(d, 2) ? PICK(d, symbols) : below(d, 10000000000);
    words[7] = limited(p, AT_VARIABLE, words[7], 0, 9999999999);
    words[8] = one_in(d, 2) ? PICK(d, symbols) : below(d, 10000000000);
    words[8] = limited(p, AT_SPECIFIC, words[8], 0, 9999999999);
    words[9] = limited(p, AT_CONSTANT, below(d, 10000), 0, 9999);
    words[10] = p->sheet == K ? between(d, 3, 9) : 5;
    words[10] = limited(p, AT_PRIORITY, words[10], 3, one_in(d, 2) ? 5 : 9);
    draw_texts(p, words + 11);
    words[ABO_ITEM_REFERENCE] = draw_reference(p);
    put_row(p, words, COUNT_OF(words));
}
