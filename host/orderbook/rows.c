#include "rows.h"

#include <stdlib.h>
#include <string.h>

#include "words.h"

static bool grow(struct ledger *l)
{
    size_t room = l->room == 0 ? 16 : 2 * l->room;
    union abo_row *rows = realloc(l->rows, room * sizeof *rows);
    if (rows != NULL)
        l->rows = rows;
    struct span(*spans)[ABO_ROW_WORDS];
    spans = realloc(l->spans, room * sizeof *spans);
    if (spans != NULL)
        l->spans = spans;
    if (rows == NULL || spans == NULL)
        return fail(l, (struct span){l->text.len, 0},
                    "there is not enough memory for the ledger's rows.");
    l->room = room;
    return true;
}

bool add_row(struct ledger *l, uint64_t kind, struct span word)
{
    if (l->count == l->room && !grow(l))
        return false;
    memset(&l->rows[l->count], 0, sizeof *l->rows);
    for (unsigned i = 0; i < ABO_ROW_WORDS; i++)
        l->spans[l->count][i] = word;
    l->rows[l->count].word[ABO_FIELD_ROW] = kind;
    l->count++;
    return true;
}

uint64_t last_kind(const struct ledger *l)
{
    return l->count > 0 ? l->rows[l->count - 1].word[ABO_FIELD_ROW] : 0;
}

void set_number(struct ledger *l, unsigned word, uint64_t value,
                struct span from)
{
    l->rows[l->count - 1].word[word] = value;
    l->spans[l->count - 1][word] = from;
}

void set_account(struct ledger *l, unsigned word, struct abo_account account,
                 struct span from)
{
    set_number(l, word, account.prefix, from);
    set_number(l, word + 1, account.base, from);
}

void set_text(struct ledger *l, unsigned word, struct span text)
{
    set_number(l, word, text.len > 0 ? text.at : 0, text);
    set_number(l, word + 1, text.len, text);
}
