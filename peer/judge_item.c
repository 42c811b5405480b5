#include "judge_item.h"
#include "account.h"
#include "split.h"

static bool pass_account(struct judge *j)
{
    size_t end;
    unsigned fault = account_fault(j->file, j->at, j->sheet, &end);
    if (fault != 0)
        return refuse(j, fault, j->at);
    j->at = end;
    return pass_divider(j);
}

static bool pass_item_amount(struct judge *j)
{
    size_t at = j->at;
    uint64_t amount;
    if (!pass_amount(j, j->sheet->item_digits, &amount))
        return false;
    if (amount == 0 || amount > j->sheet->item_most)
        return refuse(j, 6, at);
    j->sum += amount; /* 99,999 of these stay below 2^64 */
    return pass_divider(j);
}

/* Up to two digits, payee bank, constant symbol.  A collection's day is judged
   here, behind the field's own faults. */
static bool pass_bank(struct judge *j)
{
    size_t at = j->at;
    uint64_t field;
    if (!pass_digits(j, 8, 10, &field))
        return false;
    uint64_t bank = field / 10000 % 10000, front = field / 100000000;
    if (bank == 0)
        return refuse(j, 12, at);
    if (front > (j->sheet->priority ? 9u : 0u))
        return refuse(j, 13, at);
    if (j->collects && !sheet_takes_collection(j->sheet, bank, j->day, j->today,
                                               j->month_ahead))
        return refuse(j, 11, at);
    if (front == 1 || front == 2)
        j->warnings++;
    return true;
}

/* A text to the line's end; what may be empty or begin with a space is the
   caller's. */
static bool pass_text(struct judge *j)
{
    size_t end = text_end(j->file, j->at);
    struct split split;
    if (!line_ends(j->file, end))
        return refuse(j, 4, j->at);
    peer_split(j->file, j->at, end, j->sheet, &split);
    if (!split.fits)
        return refuse(j, 14, j->at);
    j->warnings += split.cuts;
    j->at = end;
    return true;
}

/* S: both spaces stand, the symbol and the part may be empty. */
static bool pass_part_tail(struct judge *j)
{
    uint64_t symbol;
    return pass_divider(j) && pass_digits(j, 0, 10, &symbol) &&
           pass_divider(j) && pass_text(j);
}

/* K, C, E, P: each space announces what follows. */
static bool pass_open_tail(struct judge *j)
{
    if (line_ends(j->file, j->at))
        return true;
    j->at++;
    struct run symbol = digit_run(j->file, j->at);
    size_t digits = symbol.end - j->at;
    if (digits >= 1 && digits <= 10 && field_ends(j->file, symbol.end)) {
        j->at = symbol.end;
        if (line_ends(j->file, j->at))
            return true;
        j->at++;
    } else if (j->sheet->tail != PEER_TAIL_AV_NP) {
        return refuse(j, 4, j->at);
    }
    if (field_ends(j->file, j->at))
        return refuse(j, 4, j->at);
    return pass_text(j);
}

bool peer_judge_item(struct judge *j)
{
    uint64_t symbol;
    if (j->file_items == MOST_ITEMS || j->items == j->sheet->all_items)
        return refuse(j, 15, j->at);
    j->file_items++;
    j->items++;
    j->rows++;
    if (j->single && !pass_account(j))
        return false;
    if (!pass_account(j) || !pass_item_amount(j) ||
        !pass_digits(j, 1, 10, &symbol) || !pass_divider(j) || !pass_bank(j))
        return false;
    return j->sheet->tail == PEER_TAIL_PART ? pass_part_tail(j)
                                            : pass_open_tail(j);
}
