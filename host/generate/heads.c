#include "heads.h"
#include "days.h"
#include "draws.h"
#include "field_account.h"
#include "fields.h"

static void put_created(struct plan *p)
{
    static const char *const aims[] = {"290223", "310418", "000118", "320118",
                                       "011318", "010018", "01011", "0101180",
                                       "01 118", "290200", "x10118", "300200"};
    size_t start = p->out->len;
    text_number(p->out, short_day_at(below(&p->dice, DAYS)), 6);
    if (spoils(p, AT_CREATED))
        SPOIL(p, start, aims);
}

/* Bytes of which each is a text byte, or with a wrong one among them. */
static void put_any_text(struct plan *p, enum part part, size_t len)
{
    static const uint8_t wrong[] = {0, 9, 31, 127, '\n', '\r'};
    size_t start = p->out->len;
    for (size_t i = 0; i < len; i++)
        text_byte(p->out, draw_name_byte(&p->dice));
    if (len > 0 && spoils(p, part)) {
        size_t at = start + below(&p->dice, len);
        p->out->data[at] = PICK(&p->dice, wrong);
    }
}

static void put_rest(struct plan *p)
{
    static const size_t wrong[] = {0, 1, 5, 6, 7, 11, 13, 18, 100};
    size_t len = p->sheet == K ? 6 * below(&p->dice, 3) : 12;
    if (spoils(p, AT_REST))
        len = PICK(&p->dice, wrong);
    put_any_text(p, AT_REST, len);
}

static void put_interval(struct plan *p)
{
    unsigned from = p->from, to = p->to;
    size_t start = p->out->len;
    if (spoils(p, AT_ORDER)) { /* K: 9 if the start is above the end */
        from = p->to;
        to = from > 0 ? from - 1 : from;
    }
    text_number(p->out, from, 3);
    text_number(p->out, to, 3);
    if (spoils(p, AT_INTERVAL))
        nudge(p, start);
}

void put_first_line(struct plan *p)
{
    static const char *const starts[] = {"UHL2", "UHL", "uhl1", " UHL1", "UHLl",
                                         "", "1 ", "UHL"};
    size_t start = p->out->len;
    text_words(p->out, spoils(p, AT_START) ? PICK(&p->dice, starts) : "UHL1");
    if (p->sheet == C) { /* anything but a line end may follow */
        size_t more = one_in(&p->dice, 2) ? 0 : below(&p->dice, 70);
        for (size_t i = 0; i < more; i++) {
            uint8_t byte = (uint8_t)roll(&p->dice);
            text_byte(p->out, byte == '\n' || byte == '\r' ? 0 : byte);
        }
        return;
    }
    put_created(p);
    put_any_text(p, AT_NAME, 20);
    put_digits(p, 10, 10);
    put_interval(p);
    put_rest(p);
    if (spoils(p, AT_FIRST)) { /* every field of this line may end it */
        static const size_t lengths[] = {4,  5,  9,  10, 29, 30, 39, 40,
                                         42, 43, 45, 46, 47, 52, 57, 58};
        size_t len = PICK(&p->dice, lengths);
        if (len < p->out->len - start)
            p->out->len = start + len;
    }
}

static void put_kind(struct plan *p)
{
    static const char *const aims[] = {"1500", "1501", "1502", "1503",  "1504",
                                       "1505", "0000", "9999", "01501", "150",
                                       "15010", "150x", "", "1401", "2501"};
    size_t start = p->out->len;
    unsigned kind = draw_kind(&p->dice, p->sheet);
    p->each = judges_each(p->sheet, kind);
    text_number(p->out, kind, 4);
    if (spoils(p, AT_KIND))
        SPOIL(p, start, aims);
}

static void put_number_of_k(struct plan *p, unsigned place)
{
    unsigned earlier = place > 0 ? (unsigned)below(&p->dice, place) : 0;
    unsigned three = p->downward ? p->to - place : p->from + place;
    if (spoils(p, AT_NUMBER_OF_K)) {
        unsigned again = p->downward ? p->to - earlier : p->from + earlier;
        const unsigned aims[] = {p->from - 1, p->to + 1, p->from, p->to,
                                 0,           999,       again,   again};
        three = PICK(&p->dice, aims) % 1000;
    }
    text_number(p->out, three * 1000 + below(&p->dice, 1000), 6);
}

static void put_number(struct plan *p, unsigned place)
{
    static const char *const aims[] = {"", "00000", "0000000", "00000x", "1",
                                       "999999", "000000", "-00001"};
    size_t start = p->out->len;
    if (p->sheet == K)
        put_number_of_k(p, place);
    else
        text_number(p->out, below(&p->dice, 1000000), 6);
    if (spoils(p, AT_NUMBER))
        SPOIL(p, start, aims);
}

static void put_bank_of_payer(struct plan *p)
{
    static const char *const aims[] = {"8100", "0800", "0300", "6100", "0000",
                                       "810", "08100", "800", "", "81x0",
                                       "9999", "8101", "0801", "6099"};
    size_t start = p->out->len;
    if (p->sheet == C && one_in(&p->dice, 2))
        text_number(p->out, below(&p->dice, 10000), 4);
    else
        text_words(p->out, payer_bank(p->sheet));
    if (spoils(p, AT_PAYER_BANK))
        SPOIL(p, start, aims);
}

void put_file_line(struct plan *p, unsigned place)
{
    text_byte(p->out, '1');
    put_gap(p);
    put_kind(p);
    put_gap(p);
    put_number(p, place);
    put_gap(p);
    put_bank_of_payer(p);
}

void put_group_line(struct plan *p, bool single, uint64_t sum)
{
    text_byte(p->out, '2');
    put_gap(p);
    if (single) {
        put_no_payer(p);
    } else {
        put_account(p);
        put_gap(p);
    }
    put_total(p, sum);
    put_gap(p);
    put_due_date(p);
}
