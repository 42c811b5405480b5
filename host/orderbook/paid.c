#include "paid.h"

#include <inttypes.h>
#include <stdlib.h>
#include <string.h>

#include "../common/sums.h"

/* What a payment and its movement have in common: payer, payee, amount and
 * variable symbol. */
struct key {
    uint64_t word[6];
};

enum state { NOT_YET, LEFT, CAME_BACK, STATES };
static const char *const says[STATES] = {"not yet", "left the account",
                                         "came back"};

struct payment {
    struct key key;
    const struct abo_item_row *item;
    enum state state;
};

static int compare_keys(const struct key *a, const struct key *b)
{
    for (size_t i = 0; i < sizeof a->word / sizeof *a->word; i++)
        if (a->word[i] != b->word[i])
            return a->word[i] < b->word[i] ? -1 : 1;
    return 0;
}

static int by_key(const void *a, const void *b)
{
    return compare_keys(a, b);
}

/* Of equal ones the first in the file comes first. */
static int by_payment(const void *a, const void *b)
{
    const struct payment *one = *(struct payment *const *)a;
    const struct payment *other = *(struct payment *const *)b;
    int order = compare_keys(&one->key, &other->key);
    return order != 0 ? order : (one > other) - (one < other);
}

static struct key key_of(struct abo_account account, struct abo_account other,
                         uint64_t amount, uint64_t variable)
{
    struct key key = {{account.prefix, account.base, other.prefix, other.base,
                       amount, variable}};
    return key;
}

/* An item pays from its own account or, if it has none, from its group's. */
static size_t take_payments(struct payment *payments, const union abo_row *rows,
                            size_t count)
{
    struct abo_account payer = {0, 0};
    uint64_t kind = 0;
    size_t used = 0;
    for (size_t i = 0; i < count; i++) {
        const struct abo_item_row *item = &rows[i].item;
        if (rows[i].word[ABO_FIELD_ROW] == ABO_ROW_FILE)
            kind = rows[i].file.kind;
        else if (rows[i].word[ABO_FIELD_ROW] == ABO_ROW_GROUP)
            payer = rows[i].group.payer;
        else if (kind == 1501) {
            struct payment *p = &payments[used++];
            p->item = item;
            p->state = NOT_YET;
            p->key = key_of(item->payer.base != 0 ? item->payer : payer,
                            item->payee, item->amount, item->variable);
        }
    }
    return used;
}

static size_t take_movements(struct key *keys, const struct statement *s,
                             uint64_t code)
{
    size_t used = 0;
    for (size_t i = 0; i < (size_t)s->answer.rows; i++) {
        const struct abo_statement_movement *m = &s->rows[i].movement;
        if (m->row == ABO_STATEMENT_MOVEMENT && m->code == code)
            keys[used++] = key_of(m->account, m->other, m->amount, m->variable);
    }
    qsort(keys, used, sizeof *keys, by_key);
    return used;
}

/* Debits but for those that were reversed, both in their order. */
static size_t without(struct key *keys, size_t count, const struct key *off,
                      size_t off_count)
{
    size_t kept = 0, k = 0;
    for (size_t i = 0; i < count; i++) {
        while (k < off_count && compare_keys(&off[k], &keys[i]) < 0)
            k++;
        if (k < off_count && compare_keys(&off[k], &keys[i]) == 0)
            k++;
        else
            keys[kept++] = keys[i];
    }
    return kept;
}

/* Both in their order: each movement takes one payment of which nothing is
 * known yet. */
static void match(struct payment **sorted, size_t payments,
                  const struct key *keys, size_t movements, enum state state)
{
    size_t i = 0, k = 0;
    while (i < payments && k < movements) {
        int order = compare_keys(&sorted[i]->key, &keys[k]);
        if (order == 0 && sorted[i]->state == NOT_YET) {
            sorted[i]->state = state;
            k++;
        } else if (order > 0) {
            k++;
        } else {
            i++;
        }
    }
}

static void show_payment(FILE *out, const struct payment *p)
{
    const struct abo_item_row *item = p->item;
    char payee[SUM_ROOM], amount[SUM_ROOM];
    struct sum sum = {0, 0};
    if (item->payee.prefix != 0)
        snprintf(payee, sizeof payee, "%" PRIu64 "-%" PRIu64 "/%04" PRIu64,
                 item->payee.prefix, item->payee.base, item->bank);
    else
        snprintf(payee, sizeof payee, "%" PRIu64 "/%04" PRIu64,
                 item->payee.base, item->bank);
    add_haler(&sum, item->amount);
    spell_sum(amount, sum);
    fprintf(out, "  %-22s%18s  %10" PRIu64 "  %s\n", payee, amount,
            item->variable, says[p->state]);
}

static void show_all(FILE *out, const struct payment *payments, size_t count)
{
    uint64_t of[STATES] = {0};
    fprintf(out, "  %-22s%18s  %10s  %s\n", "payee", "crowns", "variable",
            "by the statement");
    for (size_t i = 0; i < count; i++) {
        show_payment(out, &payments[i]);
        of[payments[i].state]++;
    }
    fprintf(out, "%" PRIu64 " of ", of[LEFT]);
    print_count(out, count, "payment");
    fprintf(out, " left the account, %" PRIu64 " came back, %" PRIu64
            " not yet.\n", of[CAME_BACK], of[NOT_YET]);
}

/* A payment that came back may have been made anew, so reversed debits are
 * taken off first. */
static void compare(struct payment **sorted, size_t count,
                    const struct statement *s, struct key *debits,
                    struct key *reversed)
{
    size_t back = take_movements(reversed, s, ABO_CODE_DEBIT_REVERSED);
    size_t left = take_movements(debits, s, ABO_CODE_DEBIT);
    left = without(debits, left, reversed, back);
    match(sorted, count, debits, left, LEFT);
    match(sorted, count, reversed, back, CAME_BACK);
}

bool show_paid(FILE *out, const union abo_row *rows, size_t count,
               const struct statement *statement)
{
    /* never of no bytes, for which there need be no memory */
    size_t most = (size_t)statement->answer.rows + 1;
    struct payment *payments = malloc((count + 1) * sizeof *payments);
    struct payment **sorted = malloc((count + 1) * sizeof *sorted);
    struct key *keys = malloc(2 * most * sizeof *keys);
    bool enough = payments != NULL && sorted != NULL && keys != NULL;
    if (enough) {
        size_t used = take_payments(payments, rows, count);
        for (size_t i = 0; i < used; i++)
            sorted[i] = &payments[i];
        qsort(sorted, used, sizeof *sorted, by_payment);
        compare(sorted, used, statement, keys, keys + most);
        show_all(out, payments, used);
    }
    free(payments);
    free(sorted);
    free(keys);
    return enough;
}
