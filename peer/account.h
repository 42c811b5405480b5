/* Account numbers: their spellings and the rule of eleven (document 01,
   Accounts). */
#ifndef PEER_ACCOUNT_H
#define PEER_ACCOUNT_H

#include "bytes.h"
#include "sheet.h"

struct account {
    uint64_t prefix, base;
};

/* A run of digits with its weighted sum.  The weights from the right are the
   powers of two modulo 11, so doubling at each digit gives a sum that is equal
   modulo 11. */
struct weighed {
    uint64_t sum;
    size_t nonzero, end;
};

static inline struct weighed weigh_run(struct bytes b, size_t at)
{
    struct weighed w = {0, 0, at};
    for (; w.end < b.len; w.end++) {
        unsigned digit = (unsigned)b.data[w.end] - '0';
        if (digit > 9)
            break;
        w.sum = w.sum * 2 + digit;
        w.nonzero += digit != 0;
    }
    return w;
}

static inline bool weighs_right(struct weighed prefix, struct weighed base)
{
    return prefix.sum % 11 == 0 && base.sum % 11 == 0 && base.nonzero >= 2;
}

/* Judges an account field: 0, 4 or 5.  With 0, end is the place behind it. */
static inline unsigned account_fault(struct bytes b, size_t at,
                                     const struct peer_sheet *sheet,
                                     size_t *end)
{
    struct weighed prefix = {0, 0, at}, base = weigh_run(b, at);
    size_t digits = base.end - at;
    if (base.end < b.len && b.data[base.end] == '-') {
        if (digits < 1 || digits > 6)
            return 4;
        prefix = base;
        base = weigh_run(b, prefix.end + 1);
        digits = base.end - prefix.end - 1;
    } else if (sheet->joined && digits > 10 && digits <= 16) {
        struct bytes head = {b.data, base.end - 10};
        prefix = weigh_run(head, at);
        base = weigh_run(b, head.len);
        digits = 10;
    }
    if (digits < sheet->base_digits || digits > 10 || !field_ends(b, base.end))
        return 4;
    *end = base.end;
    return weighs_right(prefix, base) ? 0 : 5;
}

/* Reads an account that has been judged; zeros and an empty field give none. */
static inline struct account take_account(struct bytes b, size_t at,
                                          size_t *end)
{
    struct run first = digit_run(b, at);
    *end = first.end;
    if (first.end == b.len || b.data[first.end] != '-')
        return (struct account){first.value / (BASE_MOST + 1),
                                first.value % (BASE_MOST + 1)};
    struct run second = digit_run(b, first.end + 1);
    *end = second.end;
    return (struct account){first.value, second.value};
}

static inline struct weighed weigh_value(uint64_t value)
{
    struct weighed w = {0, 0, 0};
    for (uint64_t weight = 1; value != 0; value /= 10, weight *= 2) {
        w.sum += value % 10 * weight;
        w.nonzero += value % 10 != 0;
    }
    return w;
}

static inline bool account_is_valid(struct account a)
{
    return a.prefix <= PREFIX_MOST && a.base <= BASE_MOST &&
           weighs_right(weigh_value(a.prefix), weigh_value(a.base));
}

static inline bool account_is_none(struct account a)
{
    return a.prefix == 0 && a.base == 0;
}

#endif
