#include "judge_heads.h"
#include "account.h"
#include "days.h"
#include "register.h"

/* A field of the first line, which is known by its place. */
static bool placed_digits(struct judge *j, size_t at, size_t digits,
                          uint64_t *value)
{
    struct bytes field = j->file;
    if (field.len - at > digits)
        field.len = at + digits;
    struct run run = digit_run(field, at);
    if (run.end - at != digits)
        return refuse(j, 4, at);
    *value = run.value;
    j->at = run.end;
    return true;
}

/* The rest is not read, but its length and bytes are the sheet's. */
static bool pass_rest(struct judge *j)
{
    size_t end = text_end(j->file, j->at), rest = end - j->at;
    bool fits = rest == 12;
    if (j->sheet->short_header)
        fits = fits || rest == 0 || rest == 6;
    if (!fits || !line_ends(j->file, end))
        return refuse(j, 4, j->at);
    j->at = end;
    return true;
}

/* K: a register that is lent is for this creation date. */
static bool pass_register(struct judge *j, uint64_t date, size_t at)
{
    if (!j->sheet->interval || j->reg == NULL || register_is_for(*j->reg, date))
        return true;
    return refuse(j, 23, at);
}

bool peer_judge_first(struct judge *j)
{
    struct peer_header *h = &j->header;
    if (!j->sheet->header) {
        j->at = line_end(j->file, 4);
        return true;
    }
    if (!placed_digits(j, 4, 6, &h->date))
        return false;
    h->date = date_of_short(h->date);
    if (!day_is_real(h->date))
        return refuse(j, 11, 4);
    if (!pass_register(j, h->date, 4))
        return false;
    if (text_end(j->file, 10) < 30)
        return refuse(j, 4, 10);
    memcpy(h->name, j->file.data + 10, NAME_BYTES);
    if (!placed_digits(j, 30, 10, &h->client) ||
        !placed_digits(j, 40, 3, &h->from) || !placed_digits(j, 43, 3, &h->to))
        return false;
    if (j->sheet->interval && h->from > h->to)
        return refuse(j, 9, 43);
    return pass_rest(j);
}

/* K: the number's first three digits lie in the interval and are new, in the
   file and then in the day's register, which by now is known to be sound. */
static bool pass_number(struct judge *j, uint64_t number, size_t at)
{
    uint64_t three = number / 1000;
    uint64_t bit = UINT64_C(1) << three % 64, *word = &j->met[three / 64];
    if (three < j->header.from || three > j->header.to || (*word & bit) != 0)
        return refuse(j, 9, at);
    *word |= bit;
    if (j->reg != NULL && number_is_marked(j->reg->data, three))
        return refuse(j, 22, at);
    return true;
}

bool peer_judge_file(struct judge *j)
{
    const struct peer_sheet *sheet = j->sheet;
    uint64_t value;
    size_t at;
    if (j->files == MOST_FILES)
        return refuse(j, 15, j->at);
    j->at += 2;
    at = j->at;
    if (!pass_digits(j, 4, 4, &value))
        return false;
    if (value < FIRST_KIND || value > sheet->last_kind)
        return refuse(j, 7, at);
    j->collects = sheet_collects(sheet, value);
    if (!pass_divider(j))
        return false;
    at = j->at;
    if (!pass_digits(j, 6, 6, &value) ||
        (sheet->interval && !pass_number(j, value, at)) || !pass_divider(j))
        return false;
    at = j->at;
    if (!pass_digits(j, 4, 4, &value))
        return false;
    if (!sheet->any_bank && value != sheet->bank)
        return refuse(j, 8, at);
    j->files++;
    j->file_items = 0;
    j->rows++;
    return pass_last(j);
}

/* A payer's field of zeros only; its end is given back. */
static bool zeros_field(struct bytes f, size_t at, size_t *end)
{
    struct weighed run = weigh_run(f, at);
    size_t digits = run.end - at, most = 17;
    if (run.nonzero != 0 || digits == 0)
        return false;
    if (run.end < f.len && f.data[run.end] == '-') {
        if (digits > 6)
            return false;
        at = run.end + 1;
        run = weigh_run(f, at);
        digits = run.end - at;
        most = 10;
    }
    *end = run.end;
    return run.nonzero == 0 && digits >= 1 && digits <= most &&
           field_ends(f, run.end);
}

/* Where spaces tell, fewer than three in the whole line mean no payer. */
static bool payer_is_there(struct bytes f, size_t at)
{
    unsigned spaces = 0;
    for (; !line_ends(f, at); at++)
        spaces += f.data[at] == ' ' && spaces < 3;
    return spaces == 3;
}

/* The payer's field and its divider, if there are any. */
static bool pass_payer(struct judge *j, size_t line_start)
{
    const struct peer_sheet *sheet = j->sheet;
    size_t end = j->at;
    j->single = true;
    if (sheet->by_spaces && !payer_is_there(j->file, line_start))
        return true;
    bool empty = !sheet->by_spaces && field_ends(j->file, j->at);
    if (!empty && !(sheet->zeros_single && zeros_field(j->file, j->at, &end))) {
        unsigned fault = account_fault(j->file, j->at, sheet, &end);
        if (fault != 0)
            return refuse(j, fault, j->at);
        j->single = false;
    }
    j->at = end;
    return pass_divider(j);
}

/* A collection's day need only be real here: its items' banks tell the rest. */
static bool pass_due_date(struct judge *j)
{
    size_t at = j->at;
    uint64_t date;
    if (!pass_digits(j, 6, j->sheet->long_date ? 8 : 6, &date))
        return false;
    if (j->at - at == 7)
        return refuse(j, 4, at);
    if (j->at - at == 6)
        date = date_of_short(date);
    if (!day_is_real(date))
        return refuse(j, 11, at);
    j->day = day_number(date);
    if (j->collects)
        return true;
    if (!sheet_takes_day(j->sheet, j->day, j->today))
        return refuse(j, 11, at);
    if (j->sheet->past_warns && j->day < j->today)
        j->warnings++;
    return true;
}

bool peer_judge_group(struct judge *j)
{
    size_t line_start = j->at;
    j->at += 2;
    if (!pass_payer(j, line_start))
        return false;
    j->total_line = j->line;
    j->total_at = j->at;
    j->sum = 0;
    j->rows++;
    return pass_amount(j, AMOUNT_DIGITS, &j->total) && pass_divider(j) &&
           pass_due_date(j) && pass_last(j);
}
