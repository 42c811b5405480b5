/* Each field is known to break the rule of its number, so the last of several
   causes need not be tested. */
#include "reason_field.h"
#include "account.h"
#include "days.h"

static void account_reason(const struct retrace *r, const struct field *f,
                           struct peer_finding *out)
{
    const uint8_t *data = r->file.data;
    const uint8_t *dash = memchr(data + f->at, '-', f->end - f->at);
    struct bytes prefix = {data, f->at};
    size_t base = f->at;
    if (dash != NULL) {
        prefix.len = (size_t)(dash - data);
        base = prefix.len + 1;
    } else if (f->end - f->at > 10) {
        prefix.len = base = f->end - 10;
    }
    if (weigh_run(prefix, f->at).sum % 11 != 0)
        because(out, ACCOUNT_PREFIX, 0, 0);
    else if (weigh_run(r->file, base).sum % 11 != 0)
        because(out, ACCOUNT_BASE, 0, 0);
    else
        because(out, ACCOUNT_ZEROS, 0, 0);
}

static void amount_reason(const struct retrace *r, const struct field *f,
                          struct peer_finding *out)
{
    bool zero = peer_field_value(r, f) == 0;
    because(out, zero ? AMOUNT_ZERO : AMOUNT_OVER, 1, r->sheet->item_most);
}

/* K: the start is the field in front of the end. */
static void turned_reason(const struct retrace *r, struct peer_finding *out)
{
    struct field from;
    uint64_t start = peer_seek_field(r, FIELD_FROM, &from)
                         ? peer_field_value(r, &from)
                         : 0;
    because(out, INTERVAL_TURNED, start, 999);
}

/* K: a number inside the interval can only have been used. */
static void number_reason(const struct retrace *r, const struct field *f,
                          struct peer_finding *out)
{
    uint64_t three = peer_field_value(r, f) / 1000;
    bool inside = three >= r->from && three <= r->to;
    because(out, inside ? NUMBER_USED : NUMBER_OUTSIDE, r->from, r->to);
}

static void total_reason(const struct retrace *r, struct peer_finding *out)
{
    uint64_t sum = peer_sum_ahead(r);
    if (sum > AMOUNT_MOST)
        because(out, TOTAL_PASSES, 0, AMOUNT_MOST);
    else
        because(out, TOTAL_DIFFERS, sum, sum);
}

/* A collection is too early at its bank: today is early for all but the
   sheet's own. */
static void collection_reason(const struct retrace *r, const struct field *f,
                              uint64_t today, struct peer_finding *out)
{
    uint64_t bank = peer_field_value(r, f) / 10000 % 10000;
    bool own = bank == r->sheet->bank;
    if (r->date < today || (!own && r->date == today))
        because(out, COLLECTION_EARLY, today, own ? 0 : 1);
    else
        because(out, COLLECTION_LATE, today, 1);
}

static void day_reason(const struct retrace *r, const struct field *f,
                       uint64_t today, struct peer_finding *out)
{
    const struct peer_sheet *sheet = r->sheet;
    uint64_t date = peer_field_date(r, f);
    uint64_t least = sheet->past_refused ? today : 0;
    uint64_t most = sheet->days_ahead == UINT64_MAX ? 0 : sheet->days_ahead;
    if (!day_is_real(date))
        because(out, DAY_NOT_REAL, 20000101, 20991231);
    else
        because(out, date < today ? DAY_EARLY : DAY_LATE, least, most);
}

static void digit_reason(const struct retrace *r, const struct field *f,
                         struct peer_finding *out)
{
    bool tenth = peer_field_value(r, f) / 1000000000 != 0;
    because(out, tenth ? DIGIT_TENTH : DIGIT_NINTH, 0, 0);
}

/* Is a part of the text longer than it may be?  The first begins behind
   `AV:`. */
static bool has_long_part(const struct retrace *r, const struct field *f)
{
    size_t length = 0;
    for (size_t at = f->at + 3; at < f->end; at++) {
        length = r->file.data[at] == '|' ? 0 : length + 1;
        if (length > TEXT_BYTES)
            return true;
    }
    return false;
}

/* C takes any start and cuts, so what it refuses has too many parts; its bars
   are not counted, since some may be the name's. */
static uint64_t open_text_cause(const struct retrace *r, const struct field *f)
{
    struct bytes text = {r->file.data, f->end};
    size_t bars = 0;
    if (r->sheet->tail == PEER_TAIL_AV_NP)
        return TEXT_PARTS;
    if (!starts_with(text, f->at, "AV:", 3))
        return TEXT_START;
    for (size_t at = f->at; at < f->end; at++)
        bars += text.data[at] == '|';
    if (bars >= MOST_PARTS)
        return TEXT_PARTS;
    return has_long_part(r, f) ? TEXT_LENGTH : TEXT_MARKS;
}

static void text_reason(const struct retrace *r, const struct field *f,
                        struct peer_finding *out)
{
    if (r->sheet->tail != PEER_TAIL_PART)
        because(out, open_text_cause(r, f), MOST_PARTS, TEXT_BYTES);
    else
        because(out, f->end - f->at > TEXT_BYTES ? TEXT_LENGTH : TEXT_BAR, 1,
                TEXT_BYTES);
}

void peer_field_reason(const struct retrace *r, const struct field *f,
                       uint64_t today, struct peer_finding *out)
{
    const struct peer_sheet *sheet = r->sheet;
    out->field = f->id;
    out->length = f->end - f->at;
    switch (out->number) {
    case 5:
        account_reason(r, f, out);
        break;
    case 6:
        amount_reason(r, f, out);
        break;
    case 7:
        because(out, KIND_OTHER, FIRST_KIND, sheet->last_kind);
        break;
    case 8:
        because(out, BANK_OTHER, sheet->bank, sheet->bank);
        break;
    case 9:
        if (f->id == FIELD_TO)
            turned_reason(r, out);
        else
            number_reason(r, f, out);
        break;
    case 10:
        total_reason(r, out);
        break;
    case 11:
        if (f->id == FIELD_BANK_FIELD)
            collection_reason(r, f, today, out);
        else
            day_reason(r, f, today, out);
        break;
    case 12:
        because(out, PAYEE_BANK_ZERO, 1, 9999);
        break;
    case 13:
        digit_reason(r, f, out);
        break;
    case 14:
        text_reason(r, f, out);
        break;
    default:
        because(out, BAD_BYTES, 0, 0);
    }
}
