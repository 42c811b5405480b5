/*
 * The statement that tests of the headers begin with: a head, a debit and a
 * credit, with a letter of its own in each kept field.  C99 and C++11 alike.
 */
#ifndef HOST_API_SMALL_STATEMENT_H
#define HOST_API_SMALL_STATEMENT_H

#include <abo.h>
#include <string.h>

enum { SMALL_RECORDS = 3, SMALL_FILE = SMALL_RECORDS * ABO_RECORD_BYTES };

static inline void small_movement(struct abo_statement_movement *m,
                                  uint64_t code, uint64_t amount)
{
    m->row = ABO_STATEMENT_MOVEMENT;
    m->account.prefix = 19;
    m->account.base = 19;
    m->other.prefix = 500005;
    m->other.base = 2267180257;
    m->amount = amount;
    m->code = code;
    m->variable = 2611001;
    memset(m->document, 'd', sizeof m->document);
    memset(m->constant, 'c', sizeof m->constant);
    memset(m->specific, 's', sizeof m->specific);
    memset(m->value_day, 'v', sizeof m->value_day);
    memset(m->text, 't', sizeof m->text);
    m->change = 'h';
    memset(m->kind, 'k', sizeof m->kind);
    memset(m->due_day, 'u', sizeof m->due_day);
}

static inline void make_small_statement(union abo_statement_row *rows)
{
    struct abo_statement_head *head = &rows[0].head;
    memset(rows, 0, SMALL_RECORDS * sizeof *rows);
    head->row = ABO_STATEMENT_HEAD;
    head->account.prefix = 19;
    head->account.base = 19;
    head->old_balance = -1000;
    head->new_balance = 30;
    head->debit = 700;
    head->credit = 1730;
    memset(head->name, 'n', sizeof head->name);
    memset(head->old_day, 'o', sizeof head->old_day);
    memset(head->number, 'b', sizeof head->number);
    memset(head->posted_day, 'p', sizeof head->posted_day);
    memset(head->rest, 'r', sizeof head->rest);
    small_movement(&rows[1].movement, ABO_CODE_DEBIT, 700);
    small_movement(&rows[2].movement, ABO_CODE_CREDIT, 1730);
}

#endif
