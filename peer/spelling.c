#include "spelling.h"

static void put_rest(struct pen *p, const struct peer_sheet *sheet)
{
    if (sheet->short_header)
        pen_words(p, "0 or 6 or ");
    pen_words(p, "12 bytes of text");
}

static void put_account(struct pen *p, const struct peer_sheet *sheet)
{
    pen_range(p, sheet->base_digits, sheet->joined ? 16 : 10);
    pen_words(p, " digits, or 1 to 6 digits, a dash and ");
    pen_range(p, sheet->base_digits, 10);
    pen_words(p, " digits");
}

/* A single group has no payer; where that is spelled in this field, it says
   how. */
static void put_group_payer(struct pen *p, const struct peer_sheet *sheet)
{
    bool nothing = !sheet->by_spaces, zeros = sheet->zeros_single;
    put_account(p, sheet);
    if (!nothing && !zeros)
        return;
    pen_words(p, "; ");
    pen_words(p, nothing ? "nothing" : "");
    pen_words(p, nothing && zeros ? " or " : "");
    pen_words(p, zeros ? "zeros alone" : "");
    pen_words(p, " for a single group");
}

static void put_amount(struct pen *p, const struct peer_sheet *sheet,
                       size_t most)
{
    pen_range(p, 1, most);
    pen_words(p, sheet->comma
                     ? " bytes: digits, and where there is a comma, two digits"
                       " behind it and one or more before it"
                     : " digits");
}

/* C: a text may stand in the place of a symbol, so the digits of one are always
   named with it, wherever it stands and whatever was found; behind a symbol
   digits are a text too. */
static void put_text(struct pen *p, const struct peer_sheet *sheet)
{
    bool or_symbol = sheet->tail == PEER_TAIL_AV_NP;
    pen_words(p, or_symbol ? "1 to 10 digits, or " : "");
    pen_words(p, "text bytes, 32 to 255 but 127");
    if (sheet->tail == PEER_TAIL_PART)
        return;
    pen_words(p, or_symbol ? "" : ", one or more");
    pen_words(p, ", the first no space");
}

void peer_spelling(struct pen *p, const struct peer_sheet *sheet,
                   const struct peer_finding *f)
{
    switch (f->field) {
    case FIELD_CREATED:
        pen_words(p, "six digits, DDMMRR");
        break;
    case FIELD_HOLDER:
        pen_words(p, "20 bytes of text");
        break;
    case FIELD_CLIENT:
        pen_words(p, "ten digits");
        break;
    case FIELD_FROM:
    case FIELD_TO:
        pen_words(p, "three digits");
        break;
    case FIELD_REST:
        put_rest(p, sheet);
        break;
    case FIELD_KIND:
    case FIELD_BANK:
        pen_words(p, "four digits");
        break;
    case FIELD_NUMBER:
        pen_words(p, "six digits");
        break;
    case FIELD_GROUP_PAYER:
        put_group_payer(p, sheet);
        break;
    case FIELD_TOTAL:
        put_amount(p, sheet, AMOUNT_DIGITS);
        break;
    case FIELD_DATE:
        pen_words(p, "six digits, DDMMRR");
        pen_words(p, sheet->long_date ? ", or eight, RRRRMMDD" : "");
        break;
    case FIELD_PAYER:
    case FIELD_PAYEE:
        put_account(p, sheet);
        break;
    case FIELD_AMOUNT:
        put_amount(p, sheet, sheet->item_digits);
        break;
    case FIELD_VARIABLE:
        pen_words(p, "1 to 10 digits");
        break;
    case FIELD_BANK_FIELD:
        pen_words(p, "8 to 10 digits");
        break;
    case FIELD_SPECIFIC:
        pen_range(p, sheet->tail == PEER_TAIL_PART ? 0 : 1, 10);
        pen_words(p, " digits");
        break;
    default:
        put_text(p, sheet);
    }
}
