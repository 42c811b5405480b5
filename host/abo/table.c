/* The table of a batch.  All items share the columns, each as wide as its widest cell; a column with nothing in it is left
   out, as the payer's is where every group has its own. */
#include "table.h"

#include <inttypes.h>
#include <string.h>

#include "../common/account.h"
#include "../common/sums.h"
#include "columns.h"

enum column { PAYER, PAYEE, BANK, CROWNS, VARIABLE, SPECIFIC, CONSTANT, PRIORITY, COLUMNS };
enum { CELL = SUM_ROOM }; /* room for two numbers of 64 bits and what divides them */

static const char *const titles[COLUMNS] = {
    "payer", "payee", "bank", "crowns", "variable", "specific", "constant", "priority",
};

struct cells {
    char of[COLUMNS][CELL];
};

static void spell_crowns(char *cell, uint64_t haler)
{
    struct sum sum = {0, 0};
    add_haler(&sum, haler);
    spell_sum(cell, sum);
}

static void spell_day(char *cell, uint64_t day)
{
    snprintf(cell, CELL, "%04" PRIu64 "-%02" PRIu64 "-%02" PRIu64,
             day / 10000, day / 100 % 100, day % 100);
}

static void spell_item(struct cells *c, const struct abo_item_row *item)
{
    spell_account(c->of[PAYER], CELL, item->payer);
    spell_account(c->of[PAYEE], CELL, item->payee);
    snprintf(c->of[BANK], CELL, "%04" PRIu64, item->bank);
    spell_crowns(c->of[CROWNS], item->amount);
    snprintf(c->of[VARIABLE], CELL, "%" PRIu64, item->variable);
    snprintf(c->of[SPECIFIC], CELL, "%" PRIu64, item->specific);
    snprintf(c->of[CONSTANT], CELL, "%04" PRIu64, item->constant);
    snprintf(c->of[PRIORITY], CELL, "%" PRIu64, item->priority);
}

/* The width of each column, its title's included; 0 where no item has anything. */
static void measure(int width[COLUMNS], const union abo_row *rows, size_t count)
{
    struct cells c;
    memset(width, 0, COLUMNS * sizeof *width);
    for (size_t i = 0; i < count; i++) {
        if (rows[i].word[ABO_FIELD_ROW] != ABO_ROW_ITEM)
            continue;
        spell_item(&c, &rows[i].item);
        for (int k = 0; k < COLUMNS; k++)
            widen(&width[k], c.of[k]);
    }
    widen_by_titles(width, titles, COLUMNS);
}

/* Accounts stand at the left of their columns, numbers at the right. */
static void print_cell(FILE *to, int k, int width, const char *cell)
{
    if (width > 0)
        fprintf(to, k <= PAYEE ? "  %-*s" : "  %*s", width, cell);
}

static void print_titles(FILE *to, const int width[COLUMNS])
{
    fputs("  ", to);
    for (int k = 0; k < COLUMNS; k++)
        print_cell(to, k, width[k], titles[k]);
    fputs("  message, name\n", to);
}

/* Message parts up to the last one that is not empty, then the name, each in quotes so that spaces at its ends show. */
static void print_texts(FILE *to, const struct input *file,
                        const struct abo_item_row *item)
{
    int used = ABO_PARTS;
    while (used > 0 && item->part[used - 1].length == 0)
        used--;
    for (int i = 0; i < used; i++) {
        fputs(i == 0 ? "  " : " ", to);
        print_quoted(to, file->bytes + item->part[i].place, (size_t)item->part[i].length);
    }
    if (item->name.length > 0) {
        fputs("  name ", to);
        print_quoted(to, file->bytes + item->name.place, (size_t)item->name.length);
    }
}

static void print_item(FILE *to, const struct input *file,
                       const int width[COLUMNS], const struct abo_item_row *item)
{
    struct cells c;
    spell_item(&c, item);
    fputs("  ", to);
    for (int k = 0; k < COLUMNS; k++)
        print_cell(to, k, width[k], c.of[k]);
    print_texts(to, file, item);
    fputc('\n', to);
}

/* The group's row and the items behind it, to the end of the rows at most. */
static void print_group(FILE *to, const union abo_row *rows, size_t count)
{
    char due[CELL], payer[CELL], sum[CELL];
    uint64_t total = 0;
    size_t items = 0;
    for (; items + 1 < count && rows[items + 1].word[ABO_FIELD_ROW] == ABO_ROW_ITEM; items++)
        total += rows[items + 1].item.amount;
    spell_day(due, rows->group.due);
    spell_account(payer, CELL, rows->group.payer);
    spell_crowns(sum, total);
    fprintf(to, "  group due %s, %s%s, sum %s, items %zu\n", due,
            payer[0] != '\0' ? "payer " : "a payer for each item", payer, sum,
            items);
}

/* C's files have no header, and are read with a date of 0. */
static void print_header(FILE *to, const struct abo_header *h)
{
    char date[CELL];
    size_t len = ABO_NAME_BYTES;
    if (h->date == 0)
        return;
    while (len > 0 && h->name[len - 1] == ' ')
        len--;
    spell_day(date, h->date);
    fprintf(to, "file of %s, name ", date);
    print_quoted(to, h->name, len);
    fprintf(to, ", client %010" PRIu64 ", interval %03" PRIu64 " to %03" PRIu64 "\n",
            h->client, h->from, h->to);
}

void print_batch(FILE *to, const struct input *file,
                 const struct abo_answer *answer, const union abo_row *rows)
{
    int width[COLUMNS];
    size_t count = (size_t)answer->rows;
    measure(width, rows, count);
    print_header(to, &answer->header);
    for (size_t i = 0; i < count; i++) {
        switch (rows[i].word[ABO_FIELD_ROW]) {
        case ABO_ROW_FILE:
            fprintf(to, "account file %06" PRIu64 ", kind %" PRIu64 "\n",
                    rows[i].file.number, rows[i].file.kind);
            break;
        case ABO_ROW_GROUP:
            print_group(to, rows + i, count - i);
            print_titles(to, width);
            break;
        default:
            print_item(to, file, width, &rows[i].item);
        }
    }
}
