#include "field_account.h"
#include "accounts.h"
#include "fields.h"

static const char *const account_aims[] = {
    "", "-", "19-", "-19", "1-9-9", "19--19", "0", "00", "000", "9", "09",
    "0-0", "0-9", "00-00", "19-0", "19-00", "19-9", "19-09", "1", "10", "18-19",
    "19-18", "20-19", "0000000000", "00000000000", "0000000000000000",
    "00000000000000000", "000000000000000000", "000000-0000000000",
    "0000000-0", "0-00000000000", "1234567890", "123456", "2267100237",
    "000019-0000000019", "0000019-19", "19-00000000019", "00000000019",
    "190000000019", "1900000000019", "0000190000000019", "0000180000000019",
    "00000190000000019", "100000000019", "19+19", "19-19-", "19_19", "19-19x",
    "x19-19", "1000000-19", "99999999999", "705x", "7 05", "70 5", "-705",
    "18446744073709552321", "19-18446744073709551635",
};

/* Digits with zeros in front, up to a width. */
static void put_wide(struct plan *p, uint64_t value, size_t most)
{
    size_t own = digits_in(value);
    text_number(p->out, value,
                one_in(&p->dice, 2) ? own : between(&p->dice, own, most));
}

/* C and P: prefix and base joined, 11 to 16 digits. */
static void put_joined(struct plan *p, struct account_value a)
{
    put_wide(p, a.prefix, 6);
    text_number(p->out, a.base, 10);
}

static void put_valid(struct plan *p)
{
    struct account_value a = draw_account(&p->dice);
    if (spells_long(p->sheet) && one_in(&p->dice, 4)) {
        put_joined(p, a);
    } else {
        /* A prefix of zeros only is one, too. */
        if (a.prefix != 0 || one_in(&p->dice, 6)) {
            put_wide(p, a.prefix, 6);
            text_byte(p->out, '-');
        }
        put_wide(p, a.base, 10);
    }
}

void put_account(struct plan *p)
{
    size_t start = p->out->len;
    put_valid(p);
    if (spoils(p, AT_ACCOUNT))
        SPOIL(p, start, account_aims);
}

static void put_zeros(struct plan *p)
{
    if (one_in(&p->dice, 2)) {
        text_repeat(p->out, '0', between(&p->dice, 1, 6));
        text_byte(p->out, '-');
        text_repeat(p->out, '0', between(&p->dice, 1, 10));
    } else {
        text_repeat(p->out, '0', between(&p->dice, 1, 17));
    }
}

void put_no_payer(struct plan *p)
{
    size_t start = p->out->len;
    bool zeros = (p->sheet == K || p->sheet == E) && one_in(&p->dice, 2);
    if (zeros)
        put_zeros(p);
    if (spoils(p, AT_NO_PAYER)) {
        SPOIL(p, start, account_aims);
        zeros = p->out->len > start;
    }
    /* Elsewhere the field is missing with its divider. */
    if (zeros || empty_payer(p->sheet))
        put_gap(p);
}
