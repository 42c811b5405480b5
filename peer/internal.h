/* Accounts in the internal form that statements have (request W-204): the
   sixteen digits of prefix and base in a fixed other order.  Any sixteen digits
   are an account here; the rule of eleven is not asked. */
#ifndef PEER_INTERNAL_H
#define PEER_INTERNAL_H

#include "account.h"
#include "digits.h"

enum { PREFIX_DIGITS = 6, BASE_DIGITS = 10, ACCOUNT_DIGITS = 16 };

/* Sixteen digits as bytes: edited is the prefix and then the base, both with
   their leading zeros. */
struct sixteen {
    uint8_t digit[ACCOUNT_DIGITS];
};

/* Digit k of the internal form is this digit of the edited one.  Both ways go
   by this one table, so that each undoes the other. */
static const uint8_t edited_place[ACCOUNT_DIGITS] = {
    15, 13, 14, 11, 6, 7, 8, 9, 10, 12, 0, 1, 2, 3, 4, 5,
};

static inline struct sixteen internal_of_edited(struct sixteen edited)
{
    struct sixteen internal;
    for (size_t k = 0; k < ACCOUNT_DIGITS; k++)
        internal.digit[k] = edited.digit[edited_place[k]];
    return internal;
}

static inline struct sixteen edited_of_internal(struct sixteen internal)
{
    struct sixteen edited;
    for (size_t k = 0; k < ACCOUNT_DIGITS; k++)
        edited.digit[edited_place[k]] = internal.digit[k];
    return edited;
}

/* Sixteen bytes that are known to be digits. */
static inline struct account take_internal(const uint8_t *digits)
{
    struct sixteen edited;
    memcpy(edited.digit, digits, ACCOUNT_DIGITS);
    edited = edited_of_internal(edited);
    struct bytes prefix = {edited.digit, PREFIX_DIGITS};
    struct bytes base = {edited.digit + PREFIX_DIGITS, BASE_DIGITS};
    return (struct account){digit_run(prefix, 0).value,
                            digit_run(base, 0).value};
}

/* An account that does not pass its digits. */
static inline void put_internal(uint8_t *out, struct account a)
{
    struct sixteen edited;
    put_padded(put_padded(edited.digit, a.prefix, PREFIX_DIGITS), a.base,
               BASE_DIGITS);
    edited = internal_of_edited(edited);
    memcpy(out, edited.digit, ACCOUNT_DIGITS);
}

#endif
