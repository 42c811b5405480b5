#include "tails.h"
#include "fields.h"

static uint8_t text_byte_of(struct dice *d)
{
    static const uint8_t edges[] = {' ', '!', '~', 128, 255, ':', 'N', 'P',
                                    'A', 'V', '{', '}', '#', '0', '9', '+'};
    switch (below(d, 8)) {
    case 0:
        return ' ';
    case 1:
        return PICK(d, edges);
    case 2:
        return (uint8_t)between(d, 128, 255);
    default:
        return (uint8_t)between(d, 'a', 'z');
    }
}

/* Puts one of these bytes over one of those that were put since a place. */
static void put_over(struct plan *p, size_t start, const uint8_t *bytes,
                     size_t count)
{
    size_t at = start + below(&p->dice, p->out->len - start);
    p->out->data[at] = bytes[below(&p->dice, count)];
}

/* Text bytes, none of them a bar, and on P neither `#` nor `~`.  If spoilt, one
   is no text byte, or one is such a mark. */
static void put_run(struct plan *p, size_t len)
{
    static const uint8_t wrong[] = {0, 1, 9, 11, 12, 27, 31, 127};
    static const uint8_t unclean[] = {'#', '~'};
    size_t start = p->out->len;
    for (size_t i = 0; i < len; i++) {
        uint8_t byte = text_byte_of(&p->dice);
        text_byte(p->out, p->sheet == P && (byte == '#' || byte == '~') ? '$' : byte);
    }
    if (len > 0 && spoils(p, AT_UNCLEAN))
        put_over(p, start, unclean, COUNT_OF(unclean));
    if (len > 0 && spoils(p, AT_RUN))
        put_over(p, start, wrong, COUNT_OF(wrong));
}

/* Lengths up to the limit; C cuts what is longer, the others refuse it. */
static size_t draw_length(struct plan *p)
{
    static const size_t right[] = {0, 0, 1, 2, 3, 5, 8, 12, 20, 34, 35, 35};
    static const size_t longer[] = {36, 36, 37, 40, 70, 71, 300};
    if (spoils(p, AT_LENGTH) || (p->sheet == C && one_in(&p->dice, 8)))
        return PICK(&p->dice, longer);
    return PICK(&p->dice, right);
}

/* On P ` NP:` may stand in a part, which C reads as a name. */
static void put_part(struct plan *p)
{
    size_t len = draw_length(p);
    if (len <= 31 && (spoils(p, AT_MARK) || (p->sheet == P && one_in(&p->dice, 12)))) {
        put_run(p, len / 2);
        text_words(p->out, " NP:");
        len -= len / 2;
    }
    put_run(p, len);
}

static void put_parts(struct plan *p)
{
    size_t parts = spoils(p, AT_PARTS) ? 5 : between(&p->dice, 1, 4);
    for (size_t i = 0; i < parts; i++) {
        if (i > 0)
            text_byte(p->out, '|');
        put_part(p);
    }
}

/* Pieces in any order, for the search of ` NP:` and the count of bars. */
static void put_wild(struct plan *p)
{
    static const char *const pieces[] = {
        "AV:", "NP:", " NP:", " NP:", "  NP:", " NP", "P:", ":", "|", "|", " ",
        " NP :", " np:", "A", "17", "12345678901", "NP:|", "| NP:", " N",
        " AV:", "N NP:", " NP NP:", " NPNP:",
    };
    for (size_t i = between(&p->dice, 0, 7); i > 0; i--)
        if (one_in(&p->dice, 3))
            put_run(p, draw_length(p));
        else
            text_words(p->out, PICK(&p->dice, pieces));
}

static void put_message(struct plan *p)
{
    static const char *const starts[] = {"AV", "Av:", "", "av:", " AV:", "A",
                                         "VS:", "NP:", "AV :", "AV;"};
    text_words(p->out, spoils(p, AT_MESSAGE) ? PICK(&p->dice, starts) : "AV:");
    if (spoils(p, AT_WILD))
        put_wild(p);
    else
        put_parts(p);
}

static void put_text_of_c(struct plan *p)
{
    switch (below(&p->dice, 4)) {
    case 0:
        text_words(p->out, one_in(&p->dice, 3) ? "AV:" : "x");
        put_wild(p);
        return;
    case 1:
        text_words(p->out, "NP:");
        put_run(p, draw_length(p));
        return;
    case 2:
        text_words(p->out, "AV:");
        break;
    default: /* not a space first, nor only digits */
        text_words(p->out, one_in(&p->dice, 2) ? "12345678901" : "m");
    }
    put_parts(p);
    if (one_in(&p->dice, 2)) {
        text_words(p->out, " NP:");
        put_run(p, draw_length(p));
        if (one_in(&p->dice, 4))
            put_wild(p);
    }
}

static void put_open_tail(struct plan *p)
{
    size_t form = below(&p->dice, p->sheet == C ? 4 : 3);
    if (form == 0)
        return;
    text_byte(p->out, ' ');
    if (form < 3)
        put_digits(p, 1, 10);
    if (form == 1)
        return;
    if (form == 2)
        put_gap(p);
    if (p->sheet == C)
        put_text_of_c(p);
    else
        put_message(p);
}

static void put_part_tail(struct plan *p)
{
    put_gap(p);
    put_digits(p, 0, 10);
    put_gap(p);
    put_run(p, draw_length(p));
}

void put_tail(struct plan *p)
{
    static const char *const aims[] = {
        "", " ", "  ", "   ", " 17", " 17 ", " 17  ", " 17 AV:", " AV:led",
        " 17 led", " 17led", " 1234567890", " 12345678901", " 12345678901 ",
        "  led", " 0  ", "  a|b", " 17 AV:a|b|c|d", " 17 AV:a|b|c|d|e",
        " 1 AV:||||", " 1 AV:#", " 1 AV:a|b~", " 1 AV:#\037", " 1 AV:a NP:b#",
        " 1 AV:|||", " 1  AV:x", " 1 AV:\001", " 1 NP:Jan",
        " 1 AV: NP:Jan", " 1 AV:NP:Jan", " NP:", " NP:Jan NP:K", " AV:a NP:",
        " 1 AV:a|b|c|d NP:e|f", " 1 AV:a|b|c|d| NP:e", " 1 a NP:b NP:c",
        " 1 |||", " |", " | NP:", " 17\tled", " 17 \177", " led\037", " -1",
        "  12345678901234567890123456789012345",
        "  123456789012345678901234567890123456",
        " 1 AV:123456789012345678901234567890123456",
        " 1 AV:|123456789012345678901234567890123456",
        " 1 AV:|||123456789012345678901234567890123456",
        " 1 AV:12345678901234567890123456789012345|",
    };
    size_t start = p->out->len;
    if (p->sheet == S)
        put_part_tail(p);
    else
        put_open_tail(p);
    if (spoils(p, AT_TAIL))
        SPOIL(p, start, aims);
}
