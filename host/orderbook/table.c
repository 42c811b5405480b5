/*
 * What a bank would pay, as a table. Everything comes from the rows that were
 * read back; the totals are added up from the items here.
 */
#include "table.h"

#include <inttypes.h>
#include <string.h>

#include <abo_say.h>
#include "../common/letters.h"
#include "../common/sheet_and_day.h"
#include "../common/sums.h"

enum { NUMBER_ROOM = 48, PAYEE_WIDTH = 22, AMOUNT_WIDTH = 18 };

/* PREFIX-BASE, or BASE alone. Returns the characters written. */
static int account_text(char *text, struct abo_account account)
{
    if (account.prefix != 0)
        return snprintf(text, NUMBER_ROOM, "%" PRIu64 "-%" PRIu64,
                        account.prefix, account.base);
    return snprintf(text, NUMBER_ROOM, "%" PRIu64, account.base);
}

struct table {
    FILE *out;
    const uint8_t *file;
    size_t name_width; /* of the longest name, 0 if there is none */
};

static void show_crowns(FILE *out, struct sum sum)
{
    char text[SUM_ROOM];
    spell_sum(text, sum);
    fprintf(out, "%*s", AMOUNT_WIDTH, text);
}

/* A byte takes a column. */
static void show_text(const struct table *t, struct abo_place text)
{
    show_1250(t->out, t->file + text.place, (size_t)text.length);
}

/* The name, then the parts of the message up to the last not empty. Blanks go
 * in front of a column only, so that no line ends with them. */
static void show_texts(const struct table *t, const struct abo_item_row *item)
{
    unsigned last = ABO_PARTS;
    while (last > 0 && item->part[last - 1].length == 0)
        last--;
    size_t used = (size_t)item->name.length;
    if (used > 0)
        fputs("  ", t->out);
    show_text(t, item->name);
    if (last == 0)
        return;
    if (t->name_width > 0)
        fprintf(t->out, "%*s",
                (int)(t->name_width - used + (used > 0 ? 2 : 4)), "");
    else
        fputs("  ", t->out);
    for (unsigned i = 0; i < last; i++) {
        if (i > 0)
            fputc('|', t->out);
        show_text(t, item->part[i]);
    }
}

static void show_item(const struct table *t, const struct abo_item_row *item)
{
    char payee[NUMBER_ROOM + 8];
    struct sum amount = {0, 0};
    int used = account_text(payee, item->payee);
    snprintf(payee + used, sizeof payee - (size_t)used, "/%04" PRIu64,
             item->bank);
    fprintf(t->out, "  %-*s", PAYEE_WIDTH, payee);
    add_haler(&amount, item->amount);
    show_crowns(t->out, amount);
    fprintf(t->out, "  %10" PRIu64 "  %10" PRIu64 "      %04" PRIu64
            "  %8" PRIu64, item->variable, item->specific, item->constant,
            item->priority);
    show_texts(t, item);
    if (item->payer.base != 0) {
        char payer[NUMBER_ROOM];
        account_text(payer, item->payer);
        fprintf(t->out, "\n    from %s", payer);
    }
    fputc('\n', t->out);
}

static void show_group(const struct table *t,
                       const struct abo_group_row *group)
{
    fputs("due ", t->out);
    put_day(t->out, group->due);
    if (group->payer.base != 0) {
        char payer[NUMBER_ROOM];
        account_text(payer, group->payer);
        fprintf(t->out, " from %s", payer);
    }
    fprintf(t->out, "\n  %-*s%*s  %10s  %10s  %8s  %8s", PAYEE_WIDTH, "payee",
            AMOUNT_WIDTH, "crowns", "variable", "specific", "constant",
            "priority");
    if (t->name_width > 0)
        fprintf(t->out, "  %-*s", (int)t->name_width, "name");
    fprintf(t->out, "  message\n");
}

static size_t widest_name(const union abo_row *rows, size_t count)
{
    size_t widest = 0;
    for (size_t i = 0; i < count; i++)
        if (rows[i].word[ABO_FIELD_ROW] == ABO_ROW_ITEM &&
            rows[i].item.name.length > widest)
            widest = (size_t)rows[i].item.name.length;
    /* the heading wants its room too */
    return widest > 0 && widest < strlen("name") ? strlen("name") : widest;
}

static void show_total(FILE *out, struct sum total)
{
    fprintf(out, "  %-*s", PAYEE_WIDTH, "total");
    show_crowns(out, total);
    fputc('\n', out);
}

void show_table(FILE *out, const union abo_row *rows, size_t count,
                const uint8_t *file)
{
    struct table t = {out, file, widest_name(rows, count)};
    struct sum total = {0, 0};
    for (size_t i = 0; i < count; i++) {
        const union abo_row *row = &rows[i];
        uint64_t kind = row->word[ABO_FIELD_ROW];
        if (kind == ABO_ROW_FILE)
            fprintf(out, "account file %" PRIu64 " number %06" PRIu64
                    ", %s\n", row->file.kind, row->file.number,
                    abo_say_items(row->file.kind));
        if (kind == ABO_ROW_GROUP)
            show_group(&t, &row->group);
        if (kind != ABO_ROW_ITEM)
            continue;
        show_item(&t, &row->item);
        add_haler(&total, row->item.amount);
        if (i + 1 == count || row[1].word[ABO_FIELD_ROW] != ABO_ROW_ITEM) {
            show_total(out, total);
            total = (struct sum){0, 0};
        }
    }
}
