/* What was allowed is said by the finding and by the sheet's parameters. */
#include "sentence.h"
#include "spelling.h"

static const char *const fields[] = {
    [FIELD_LINE] = "the line",
    [FIELD_CREATED] = "the creation date",
    [FIELD_HOLDER] = "the name",
    [FIELD_CLIENT] = "the client number",
    [FIELD_FROM] = "the interval's start",
    [FIELD_TO] = "the interval's end",
    [FIELD_REST] = "the rest",
    [FIELD_KIND] = "the kind",
    [FIELD_NUMBER] = "the number",
    [FIELD_BANK] = "the bank",
    [FIELD_GROUP_PAYER] = "the payer's account",
    [FIELD_TOTAL] = "the total",
    [FIELD_DATE] = "the due date",
    [FIELD_PAYER] = "the payer's account",
    [FIELD_PAYEE] = "the payee's account",
    [FIELD_AMOUNT] = "the amount",
    [FIELD_VARIABLE] = "the variable symbol",
    [FIELD_BANK_FIELD] = "the bank field",
    [FIELD_SPECIFIC] = "the specific symbol",
    [FIELD_TEXT] = "the text",
    [FIELD_PARTS] = "message part 1",
    [FIELD_PARTS + 1] = "message part 2",
    [FIELD_PARTS + 2] = "message part 3",
    [FIELD_PARTS + 3] = "message part 4",
    [FIELD_NAME] = "the name",
    [FIELD_GROUP_END] = "the group's end",
    [FIELD_FILE_END] = "the account file's end",
};

static const char *const rules[] = {
    [3] = "another line is due",
    [4] = "the field is not spelled as it must be",
    [5] = "the account is not valid",
    [6] = "the amount is not allowed",
    [7] = "the kind is not on the sheet",
    [8] = "the payer's bank is not the sheet's",
    [9] = "the interval or the number is not allowed",
    [10] = "the total is not the sum",
    [11] = "the day is not allowed",
    [12] = "the payee's bank is 0000",
    [13] = "a leading digit is not allowed",
    [14] = "the text breaks the sheet",
    [15] = "there are too many",
};

/* ---- what was allowed ---- */

static void put_due(struct pen *p, uint64_t cause)
{
    static const char *const due[] = {
        "a first line, UHL1",
        "an account file, 1",
        "a group, 2",
        "an item",
        "an item or the group's end, 3 +",
        "a group, 2, or the account file's end, 5 +",
        "an account file, 1, or the end of the file",
    };
    pen_words(p, due[cause - DUE_FIRST]);
}

static void put_form(struct pen *p, const struct peer_sheet *sheet,
                     const struct peer_finding *f)
{
    const char *digit = f->field == FIELD_GROUP_END ? "3" : "5";
    switch (f->cause) {
    case BAD_DIVIDER_MISSING:
        pen_words(p, "a space and ");
        pen_words(p, fields[f->field]);
        pen_words(p, " behind it");
        break;
    case BAD_DIVIDER_MORE:
        pen_words(p, "the end of the line");
        break;
    case BAD_CLOSING:
        pen_words(p, digit);
        pen_words(p, " +");
        if (sheet->tight_close) {
            pen_words(p, " or ");
            pen_words(p, digit);
            pen_words(p, "+");
        }
        break;
    default:
        peer_spelling(p, sheet, f);
    }
}

static void put_account_rule(struct pen *p, uint64_t cause)
{
    static const char weighed[] =
        " whose weighted digits add up to a multiple of 11";
    if (cause == ACCOUNT_ZEROS) {
        pen_words(p, "a base with two digits or more that are not zero");
        return;
    }
    pen_words(p, cause == ACCOUNT_PREFIX ? "a prefix" : "a base");
    pen_words(p, weighed);
}

static void put_kinds(struct pen *p, const struct peer_finding *f)
{
    if (f->least == f->most)
        pen_number(p, f->least);
    else
        pen_range(p, f->least, f->most);
}

static void put_interval(struct pen *p, const struct peer_finding *f)
{
    if (f->cause != INTERVAL_TURNED)
        pen_words(p, "first three digits ");
    if (f->cause == NUMBER_USED) {
        pen_words(p, "that no account file before has");
        return;
    }
    pen_padded(p, f->least, 3);
    pen_words(p, " to ");
    pen_padded(p, f->most, 3);
}

static void put_sum(struct pen *p, const struct peer_finding *f)
{
    pen_words(p, f->cause == TOTAL_PASSES ? "a sum of at most "
                                          : "the sum of the items, ");
    pen_number(p, f->most);
}

static void put_days(struct pen *p, const struct peer_finding *f,
                     uint64_t today)
{
    switch (f->cause) {
    case DAY_NOT_REAL:
        pen_words(p, "a real day of 2000 to 2099");
        return;
    case DAY_LATE:
        pen_words(p, "at most ");
        pen_number(p, f->most);
        pen_words(p, " days after ");
        pen_day(p, today);
        return;
    case COLLECTION_LATE:
        pen_words(p, "at most one month after ");
        pen_day(p, today);
        return;
    default:
        break;
    }
    /* Too early: a collection at another bank is due tomorrow at the soonest,
       all else today. */
    if (f->cause == COLLECTION_EARLY && f->most == 1) {
        pen_words(p, "after ");
        pen_day(p, today);
    } else {
        pen_words(p, "from ");
        pen_day(p, today);
        pen_words(p, " on");
    }
}

static void put_text_rule(struct pen *p, const struct peer_finding *f)
{
    switch (f->cause) {
    case TEXT_START:
        pen_words(p, "a text that begins with AV:");
        break;
    case TEXT_PARTS:
        pen_words(p, "at most ");
        pen_number(p, f->least);
        pen_words(p, " parts");
        break;
    case TEXT_LENGTH:
        pen_words(p, "at most ");
        pen_number(p, f->most);
        pen_words(p, " bytes in a part");
        break;
    case TEXT_BAR:
        pen_words(p, "no bar");
        break;
    default:
        pen_words(p, "no # and no ~");
    }
}

static void put_limit(struct pen *p, const struct peer_finding *f)
{
    pen_words(p, "at most ");
    pen_number(p, f->most);
    if (f->cause == MANY_FILES)
        pen_words(p, " account files");
    else if (f->cause == MANY_FILE_ITEMS)
        pen_words(p, " items in an account file");
    else
        pen_words(p, " items in a file");
}

static void put_allowed(struct pen *p, const struct worded *w,
                        const struct peer_finding *f)
{
    switch (f->number) {
    case 3:
        put_due(p, f->cause);
        break;
    case 4:
        put_form(p, w->sheet, f);
        break;
    case 5:
        put_account_rule(p, f->cause);
        break;
    case 6:
        pen_range(p, f->least, f->most);
        break;
    case 7:
        put_kinds(p, f);
        break;
    case 8:
        pen_padded(p, f->most, 4);
        break;
    case 9:
        put_interval(p, f);
        break;
    case 10:
        put_sum(p, f);
        break;
    case 11:
        put_days(p, f, w->today);
        break;
    case 12:
        pen_padded(p, f->least, 4);
        pen_words(p, " to ");
        pen_padded(p, f->most, 4);
        break;
    case 13:
        pen_words(p, "0 as the ");
        pen_words(p, f->cause == DIGIT_TENTH ? "tenth" : "ninth");
        pen_words(p, " digit from the right");
        break;
    case 14:
        put_text_rule(p, f);
        break;
    default:
        put_limit(p, f);
    }
}

/* ---- the sentence ---- */

static void put_warning(struct pen *p, const struct peer_finding *f)
{
    switch (f->cause) {
    case WARNS_TOTAL:
        pen_words(p, "the total is not the sum of the items, ");
        pen_number(p, f->most);
        break;
    case WARNS_PAST:
        pen_words(p, "the day is before ");
        pen_day(p, f->least);
        break;
    case WARNS_PRIORITY:
        pen_words(p, "priority ");
        pen_number(p, f->least);
        pen_words(p, " is read as ");
        pen_number(p, f->most);
        break;
    default:
        pen_words(p, "cut to ");
        pen_number(p, f->most);
        pen_words(p, " bytes");
    }
}

static void put_found(struct pen *p, struct bytes file,
                      const struct peer_finding *f)
{
    pen_words(p, "; found ");
    if (f->number == 3 && f->byte == file.len)
        pen_words(p, "the end of the file");
    else if (f->length == 0)
        pen_words(p, "nothing");
    else
        pen_quote(p, file.data + (size_t)f->byte, f->length);
}

void peer_sentence(struct pen *p, const struct worded *w,
                   const struct peer_finding *f)
{
    pen_words(p, "Line ");
    pen_number(p, f->line);
    pen_words(p, ", byte ");
    pen_number(p, f->byte);
    pen_words(p, ", ");
    pen_words(p, fields[f->field]);
    pen_words(p, ": ");
    if (f->number == 0) {
        put_warning(p, f);
        put_found(p, w->file, f);
    } else {
        pen_words(p, rules[f->number]);
        pen_words(p, " (");
        pen_number(p, f->number);
        pen_words(p, ")");
        put_found(p, w->file, f);
        pen_words(p, "; allowed: ");
        put_allowed(p, w, f);
    }
    pen_words(p, ".\n");
}
