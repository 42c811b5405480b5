/* One list of cells for both forms.  In the table all movements share the columns, each as wide as its widest cell; a column with
   nothing in it is left out. */
#include "statement_table.h"

#include <inttypes.h>
#include <string.h>

#include <abo_say.h>
#include "../common/account.h"
#include "../common/balance.h"
#include "../common/letters.h"
#include "../common/sums.h"
#include "columns.h"

enum column { DAY, OTHER, CROWNS, BALANCE, POSTING, VARIABLE, SPECIFIC, CONSTANT, COLUMNS };
enum { CELL = BALANCE_ROOM };

static const char *const titles[COLUMNS] = {
    "day", "other account", "crowns", "balance", "posting", "variable", "specific", "constant",
};

struct cells {
    char of[COLUMNS][CELL];
};

/* ---- cells ---- */

static bool are_digits(const uint8_t *bytes, size_t len)
{
    for (size_t i = 0; i < len; i++)
        if (bytes[i] < '0' || bytes[i] > '9')
            return false;
    return true;
}

/* DDMMRR as 20RR-MM-DD; nothing where it is no day, as zeros are, since these bytes have no rule. */
static void spell_day(char *cell, const uint8_t day[6])
{
    const char *d = (const char *)day;
    bool likely = are_digits(day, 6) && memcmp(d, "01", 2) >= 0 && memcmp(d, "31", 2) <= 0 && memcmp(d + 2, "01", 2) >= 0 &&
                  memcmp(d + 2, "12", 2) <= 0;
    cell[0] = '\0';
    if (likely)
        snprintf(cell, CELL, "20%.2s-%.2s-%.2s", d + 4, d + 2, d);
}

/* A symbol without its leading zeros, which has no rule: nothing if it is no number. */
static void spell_symbol(char *cell, const uint8_t *digits, size_t len)
{
    size_t from = 0;
    cell[0] = '\0';
    if (!are_digits(digits, len))
        return;
    while (from + 1 < len && digits[from] == '0')
        from++;
    snprintf(cell, CELL, "%.*s", (int)(len - from), (const char *)digits + from);
}

/* The other account and, from the constant symbol's field, its bank. */
static void spell_other(char *cell, const struct abo_statement_movement *m)
{
    size_t len;
    spell_account(cell, CELL, m->other);
    len = strlen(cell);
    if (len > 0 && are_digits(m->constant, sizeof m->constant))
        snprintf(cell + len, CELL - len, "/%.4s", (const char *)m->constant + 2);
}

static void spell_movement(struct cells *c, const struct abo_statement_movement *m, struct balance balance)
{
    spell_day(c->of[DAY], m->value_day);
    spell_other(c->of[OTHER], m);
    spell_balance(c->of[CROWNS], balance_of(effect_of(m)));
    spell_balance(c->of[BALANCE], balance);
    snprintf(c->of[POSTING], CELL, "%s", abo_say_code(m->code));
    snprintf(c->of[VARIABLE], CELL, "%" PRIu64, m->variable);
    spell_symbol(c->of[SPECIFIC], m->specific, sizeof m->specific);
    snprintf(c->of[CONSTANT], CELL, "%.4s", are_digits(m->constant, sizeof m->constant) ? (const char *)m->constant + 6 : "");
}

/* Goes from row to row: the balance behind a row, which a head begins. */
static void next_balance(struct balance *b, const union abo_statement_row *row)
{
    if (row->word[ABO_FIELD_ROW] == ABO_STATEMENT_HEAD)
        *b = balance_of(row->head.old_balance);
    else
        add_signed(b, effect_of(&row->movement));
}

/* ---- the table ---- */

static void measure(int width[COLUMNS], const struct statement *s)
{
    struct cells c;
    struct balance balance = {0, 0};
    memset(width, 0, COLUMNS * sizeof *width);
    for (size_t i = 0; i < (size_t)s->answer.rows; i++) {
        next_balance(&balance, &s->rows[i]);
        if (s->rows[i].word[ABO_FIELD_ROW] != ABO_STATEMENT_MOVEMENT)
            continue;
        spell_movement(&c, &s->rows[i].movement, balance);
        for (int k = 0; k < COLUMNS; k++)
            widen(&width[k], c.of[k]);
    }
    widen_by_titles(width, titles, COLUMNS);
}

/* Days, accounts and words stand at the left of their columns, numbers at the right. */
static void print_cell(FILE *to, int k, int width, const char *cell)
{
    bool left = k == DAY || k == OTHER || k == POSTING;
    if (width > 0)
        fprintf(to, left ? "  %-*s" : "  %*s", width, cell);
}

static size_t without_blanks(const uint8_t *bytes, size_t len)
{
    while (len > 0 && bytes[len - 1] == ' ')
        len--;
    return len;
}

static void print_text(FILE *to, const uint8_t *bytes, size_t len)
{
    print_quoted(to, bytes, without_blanks(bytes, len));
}

/* "statement 001 of 2001-12-27, account 19-19, name "Firma"": what a head says but for its numbers, as far as it says it. */
static void print_head(FILE *to, const struct abo_statement_head *h)
{
    char cell[CELL];
    fputs("statement ", to);
    if (are_digits(h->number, sizeof h->number))
        fprintf(to, "%.3s", (const char *)h->number);
    else
        print_text(to, h->number, sizeof h->number);
    spell_day(cell, h->posted_day);
    if (cell[0] != '\0')
        fprintf(to, " of %s", cell);
    spell_account(cell, CELL, h->account);
    fprintf(to, ", account %s, name ", cell[0] != '\0' ? cell : "0");
    print_text(to, h->name, sizeof h->name);
    fputc('\n', to);
}

/* "  old balance 10.00, debit 5.00, credit 1.00, new balance 6.00". */
static void print_sums(FILE *to, const struct abo_statement_head *h)
{
    const struct {
        const char *noun;
        int64_t haler;
    } parts[] = {{"old balance", h->old_balance}, {"debit", h->debit}, {"credit", h->credit}, {"new balance", h->new_balance}};
    char cell[CELL];
    for (size_t i = 0; i < sizeof parts / sizeof *parts; i++) {
        spell_balance(cell, balance_of(parts[i].haler));
        fprintf(to, "%s%s %s", i == 0 ? "  " : ", ", parts[i].noun, cell);
    }
    fputc('\n', to);
}

static void print_titles(FILE *to, const int width[COLUMNS])
{
    fputs("  ", to);
    for (int k = 0; k < COLUMNS; k++)
        print_cell(to, k, width[k], titles[k]);
    fputs("  text\n", to);
}

void print_statement(FILE *to, const struct statement *s)
{
    int width[COLUMNS];
    struct cells c;
    struct balance balance = {0, 0};
    size_t count = (size_t)s->answer.rows;
    measure(width, s);
    for (size_t i = 0; i < count; i++) {
        const struct abo_statement_movement *m = &s->rows[i].movement;
        next_balance(&balance, &s->rows[i]);
        if (s->rows[i].word[ABO_FIELD_ROW] == ABO_STATEMENT_HEAD) {
            print_head(to, &s->rows[i].head);
            print_sums(to, &s->rows[i].head);
            if (i + 1 < count && s->rows[i + 1].word[ABO_FIELD_ROW] == ABO_STATEMENT_MOVEMENT)
                print_titles(to, width);
            continue;
        }
        spell_movement(&c, m, balance);
        fputs("  ", to);
        for (int k = 0; k < COLUMNS; k++)
            print_cell(to, k, width[k], c.of[k]);
        fputs("  ", to);
        print_text(to, m->text, sizeof m->text);
        fputc('\n', to);
    }
}

/* ---- cells divided by commas ---- */

/* A text between quotation marks; such a mark inside stands twice. */
static void put_csv_text(FILE *to, const uint8_t *bytes, size_t len)
{
    len = without_blanks(bytes, len);
    fputc('"', to);
    for (size_t i = 0; i < len; i++) {
        if (bytes[i] == '"')
            fputc('"', to);
        show_1250(to, bytes + i, 1);
    }
    fputc('"', to);
}

void print_statement_csv(FILE *to, const struct statement *s)
{
    const struct abo_statement_head *head = NULL;
    struct balance balance = {0, 0};
    struct cells c;
    char account[CELL];
    fputs("account,statement", to);
    for (int k = 0; k < COLUMNS; k++)
        fprintf(to, ",%s", titles[k]);
    fputs(",document,text\n", to);
    for (size_t i = 0; i < (size_t)s->answer.rows; i++) {
        const struct abo_statement_movement *m = &s->rows[i].movement;
        next_balance(&balance, &s->rows[i]);
        if (s->rows[i].word[ABO_FIELD_ROW] == ABO_STATEMENT_HEAD) {
            head = &s->rows[i].head;
            continue;
        }
        spell_account(account, CELL, m->account);
        spell_movement(&c, m, balance);
        fprintf(to, "%s,", account);
        put_csv_text(to, head->number, sizeof head->number);
        for (int k = 0; k < COLUMNS; k++)
            fprintf(to, ",%s", c.of[k]);
        fputc(',', to);
        put_csv_text(to, m->document, sizeof m->document);
        fputc(',', to);
        put_csv_text(to, m->text, sizeof m->text);
        fputc('\n', to);
    }
}

void print_statement_count(FILE *to, const struct statement *s)
{
    uint64_t heads = 0;
    for (size_t i = 0; i < (size_t)s->answer.rows; i++)
        heads += s->rows[i].word[ABO_FIELD_ROW] == ABO_STATEMENT_HEAD;
    print_count(to, heads, "statement");
    fputs(", ", to);
    print_count(to, s->answer.rows - heads, "movement");
}
