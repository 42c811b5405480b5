#include "sheet.h"

#define BELOW_10_12 UINT64_C(999999999999)

static const struct peer_sheet sheets[SHEETS] = {
    {
        .letter = 'K',
        .header = true, .short_header = true, .interval = true,
        .bank = 8100, .last_kind = 1501,
        .base_digits = 2,
        .by_spaces = true, .zeros_single = true, .past_refused = true,
        .total_binds = true, .days_ahead = 364,
        .priority = true, .item_digits = AMOUNT_DIGITS,
        .item_most = AMOUNT_MOST, .all_items = UINT64_MAX,
        .tail = PEER_TAIL_AV,
    },
    {
        .letter = 'S',
        .header = true,
        .bank = 800, .last_kind = 1502,
        .base_digits = 1,
        .past_refused = true, .total_binds = true, .days_ahead = UINT64_MAX,
        .item_digits = 12, .item_most = BELOW_10_12, .all_items = 1000,
        .tail = PEER_TAIL_PART,
    },
    {
        .letter = 'C',
        .any_bank = true, .bank = 300, .last_kind = 1504,
        .joined = true, .base_digits = 1,
        .by_spaces = true, .long_date = true, .past_warns = true,
        .tight_close = true, .days_ahead = 365, .collects = true,
        .item_digits = AMOUNT_DIGITS, .item_most = AMOUNT_MOST,
        .all_items = UINT64_MAX, .tail = PEER_TAIL_AV_NP,
    },
    {
        .letter = 'E',
        .header = true,
        .bank = 6100, .last_kind = 1501,
        .base_digits = 1,
        .zeros_single = true, .tight_close = true, .days_ahead = UINT64_MAX,
        .comma = true, .item_digits = AMOUNT_DIGITS, .item_most = BELOW_10_12,
        .all_items = UINT64_MAX, .tail = PEER_TAIL_AV,
    },
    { /* the previous edition of C (request W-201) */
        .letter = 'P',
        .header = true,
        .bank = 300, .last_kind = 1502,
        .joined = true, .base_digits = 1,
        .by_spaces = true, .long_date = true, .past_warns = true,
        .total_binds = true, .days_ahead = 365, .collects = true,
        .item_digits = AMOUNT_DIGITS, .item_most = AMOUNT_MOST,
        .all_items = UINT64_MAX, .tail = PEER_TAIL_AV, .plain_parts = true,
    },
};

const struct peer_sheet *peer_sheet_of(uint64_t number)
{
    return number >= 1 && number <= SHEETS ? &sheets[number - 1] : NULL;
}
