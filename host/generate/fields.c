#include "fields.h"
#include "draws.h"

void put_gap(struct plan *p)
{
    static const char *const gaps[] = {"", "  ", "\t", "   ", "\r", "\n", "-"};
    text_words(p->out, spoils(p, AT_GAP) ? PICK(&p->dice, gaps) : " ");
}

void put_digits(struct plan *p, size_t least, size_t most)
{
    static const char *const aims[] = {
        "", "0", "-1", "x", "9999999999", "09999999999", "10000000000",
        "00000000000", "18446744073709551616", "18446744073709551617",
    };
    size_t start = p->out->len, digits = between(&p->dice, least, most);
    for (size_t i = 0; i < digits; i++)
        text_byte(p->out, (uint8_t)('0' + below(&p->dice, 10)));
    if (spoils(p, AT_DIGITS))
        SPOIL(p, start, aims);
}

/* Zeros in front, or none, up to so many digits. */
static void put_padded(struct plan *p, uint64_t value, size_t most)
{
    size_t own = digits_in(value), digits = own;
    if (own < most && one_in(&p->dice, 3))
        digits = one_in(&p->dice, 3) ? most : between(&p->dice, own, most);
    text_number(p->out, value, digits);
}

/* A comma wants a digit before it and counts among the 14 bytes. */
static void put_comma(struct plan *p, uint64_t amount)
{
    put_padded(p, amount / 100, 11);
    text_byte(p->out, ',');
    text_number(p->out, amount % 100, 2);
}

static void put_plain_amount(struct plan *p, uint64_t amount, size_t most)
{
    if (p->sheet == E && amount < UINT64_C(10000000000000) &&
        one_in(&p->dice, 2))
        put_comma(p, amount);
    else
        put_padded(p, amount, most);
}

void put_amount(struct plan *p, uint64_t amount)
{
    static const char *const aims[] = {
        "0", "00", "00000000000000", "000000000000000", "", "5001a", "-1",
        "999999999999", "0999999999999", "1000000000000", "1000000000001",
        "0000000000001", "00000000000001", "000000000000001",
        "99999999999999", "099999999999999", "100000000000000",
        ",", ",5", ",50", "1,", "3500,0", "3500,00", "3500,000", "35,00,00",
        "3500.00", "0,00", "00,00", "0,01", "9999999999,99", "10000000000,00",
        "99999999999,99", "00000000001,00", "000000000001,00",
        "999999999999,99", "3500,0x", "3500,x0", "18446744073709551617",
        "18446744073709551616", "340282366920938463463374607431768211457",
    };
    uint64_t most = most_of_item(p->sheet);
    const uint64_t limits[] = {0, 0, most, most + 1, MOST_SUM, MOST_SUM + 1};
    size_t start = p->out->len;
    bool wrong = spoils(p, AT_AMOUNT), limit = wrong && one_in(&p->dice, 2);
    put_plain_amount(p, limit ? PICK(&p->dice, limits) : amount,
                     p->sheet == S ? 12 : 14);
    if (wrong && !limit)
        SPOIL(p, start, aims);
}

void put_total(struct plan *p, uint64_t sum)
{
    static const char *const aims[] = {
        "0", "", "00000000000000", "000000000000000", "99999999999999",
        "100000000000000", "1,", ",50", "3500,0", "3500,00", "0,00", "x",
        "99999999999,99", "999999999999,99", "18446744073709551617",
    };
    size_t start = p->out->len;
    uint64_t total = sum <= MOST_SUM ? sum : sum % (MOST_SUM + 1);
    if (one_in(&p->dice, 40)) /* C and E warn, the others refuse it */
        total = one_in(&p->dice, 2) && total < MOST_SUM ? total + 1
                : total > 0                             ? total - 1
                                                        : 1;
    put_plain_amount(p, total, 14);
    if (spoils(p, AT_TOTAL))
        SPOIL(p, start, aims);
}

static void put_day(struct plan *p, size_t place)
{
    if (spells_long(p->sheet) && one_in(&p->dice, 3))
        text_number(p->out, day_at(place), 8);
    else
        text_number(p->out, short_day_at(place), 6);
}

/* A day that is wrong is told at an item, which at times has another fault, left
   of that place, at it or right of it. */
static void spoil_item_too(struct plan *p)
{
    static const enum part parts[] = {AT_ACCOUNT, AT_AMOUNT, AT_DIGITS, AT_BANK,
                                      AT_BANK, AT_BANK, AT_TAIL, AT_GAP};
    if (one_in(&p->dice, 2))
        p->faults.aim = PICK(&p->dice, parts);
}

void put_due_date(struct plan *p)
{
    static const char *const aims[] = {
        "", "290223", "290224", "290200", "310418", "310618", "000118",
        "010018", "320118", "011318", "300218", "02018", "0201180", "2018010",
        "20180132", "20181301", "20180001", "20180100", "19991231", "20000101",
        "20991231", "21000101", "21000228", "20240229", "20230229",
        "201801021", "020118x", "x20118", "0201 18", "2-01-18", "20180102x",
        "99999999", "00000000", "000000", "311299", "010100",
    };
    size_t start = p->out->len;
    bool wrong = spoils(p, AT_DATE);
    bool near = wrong && !one_in(&p->dice, p->each ? 4 : 2);
    size_t day = near ? draw_near_day(&p->dice, p->sheet, p->each, p->today)
                 : p->each && aims_at(&p->faults, AT_TERM)
                     ? p->today
                     : draw_due_day(&p->dice, p->sheet, p->each, p->today);
    put_day(p, day);
    p->due_today = p->each && day == p->today;
    if (wrong && !near)
        SPOIL(p, start, aims);
    if (wrong && p->each)
        spoil_item_too(p);
}

/* Both kinds of banks stand in a group, unless it is due today. */
static bool is_own(struct plan *p)
{
    return p->due_today ? !spoils(p, AT_TERM) : one_in(&p->dice, 2);
}

void put_bank(struct plan *p)
{
    static const char *const aims[] = {
        "00000558", "000000558", "0000000558", "0300000558", "1000000558",
        "0300055", "00003000558", "1003000558", "9003000558", "0103000558",
        "0903000558", "103000558", "903000558", "0003000558", "003000558",
        "00010000", "99999999", "0099999999", "", "03000558x", "x3000558",
        "0300-558", "18446744073709551617",
    };
    size_t start = p->out->len, front = below(&p->dice, 3);
    bool wrong = spoils(p, AT_BANK), limit = wrong && one_in(&p->dice, 2);
    /* K's ninth digit is the priority, elsewhere it is 0. */
    bool any_ninth = p->sheet == K || (limit && one_in(&p->dice, 2));
    uint64_t tenth = limit && one_in(&p->dice, 4) ? below(&p->dice, 10) : 0;
    uint64_t ninth = any_ninth ? below(&p->dice, 10) : 0;
    uint64_t bank = p->each ? draw_own_or_other(&p->dice, p->sheet, is_own(p))
                            : draw_bank(&p->dice);
    if (limit && one_in(&p->dice, 2))
        bank = 0;
    if (front == 2)
        text_number(p->out, tenth, 1);
    if (front > 0)
        text_number(p->out, ninth, 1);
    text_number(p->out, bank, 4);
    text_number(p->out, below(&p->dice, 10000), 4);
    if (wrong && !limit)
        SPOIL(p, start, aims);
}
