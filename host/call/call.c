#include "call.h"
#include "show.h"

#include <stdio.h>
#include <string.h>

const char *const call_names[CALLS] = {
    "read", "write", "explain", "line", "statement_read", "statement_write",
    "findings", "read_registered", "register_start", "register_lowest",
    "register_free", "register_give_back",
};

struct outcome outcome_of_answer(const struct abo_answer *a)
{
    const struct abo_header *h = &a->header;
    struct outcome o = {
        .number = a->number,
        .words = {a->line, a->byte, a->rows, a->warnings, a->needed, h->date,
                  h->client, h->from, h->to},
        .written = a->number == 0 ? a->rows * ABO_ROW_BYTES : 0,
        .needed = a->needed * ABO_ROW_BYTES,
    };
    memcpy(o.name, h->name, sizeof o.name);
    return o;
}

struct outcome outcome_of_written(const struct abo_written *w)
{
    return (struct outcome){
        .number = w->number,
        .words = {w->row, w->field, w->bytes},
        .written = w->number == 0 ? w->bytes : 0,
        .needed = w->number == 16 ? w->bytes : 0,
    };
}

struct outcome outcome_of_text(const struct abo_text *t)
{
    return (struct outcome){
        .number = t->number,
        .words = {t->bytes},
        .written = t->number == 0 ? t->bytes : 0,
        .needed = t->number == 16 ? t->bytes : 0,
    };
}

struct outcome outcome_of_found(const struct abo_found *f)
{
    return (struct outcome){.number = f->found, .words = {f->at, f->len}};
}

struct outcome outcome_of_statement(const struct abo_statement_answer *a)
{
    return (struct outcome){
        .number = a->number,
        .words = {a->line, a->byte, a->rows, a->needed},
        .written = a->number == 0 ? a->rows * ABO_STATEMENT_ROW_BYTES : 0,
        .needed = a->needed * ABO_STATEMENT_ROW_BYTES,
    };
}

struct outcome outcome_of_list(const struct abo_list *l)
{
    return (struct outcome){
        .number = l->number,
        .words = {l->refused, l->count, l->needed, l->sheets},
        .written = l->number == 0 ? l->count * ABO_FINDING_BYTES : 0,
        .needed = l->needed * ABO_FINDING_BYTES,
    };
}

struct outcome outcome_of_register(const struct abo_register_answer *a)
{
    return (struct outcome){.number = a->number, .words = {a->value}};
}

/* Of the sheets K alone looks at it. */
size_t register_written(const struct call *c, const struct outcome *o)
{
    bool changes =
        c->which == STARTS || c->which == GIVES_BACK ||
        (c->which == READS_REGISTERED && c->sheet == ABO_SHEET_K);
    return changes && o->number == ABO_ACCEPTED ? ABO_REGISTER_BYTES : 0;
}

bool same_outcome(const struct outcome *a, const struct outcome *b)
{
    return a->number == b->number &&
           memcmp(a->words, b->words, sizeof a->words) == 0 &&
           memcmp(a->name, b->name, sizeof a->name) == 0;
}

bool same_header(const struct abo_header *a, const struct abo_header *b)
{
    return a->date == b->date && a->client == b->client && a->from == b->from &&
           a->to == b->to && memcmp(a->name, b->name, sizeof a->name) == 0;
}

void give_header(struct call *c, const struct outcome *read)
{
    c->date = read->words[HEADER_WORDS];
    c->client = read->words[HEADER_WORDS + 1];
    c->from = read->words[HEADER_WORDS + 2];
    c->to = read->words[HEADER_WORDS + 3];
}

static void show_register(const struct call *c)
{
    printf("  date %llu given %llu\n", (unsigned long long)c->date,
           (unsigned long long)c->given);
    show_bytes("register", c->reg.bytes, c->reg.len);
}

void show_call(const struct call *c, size_t room, bool at_null)
{
    printf("  abo_%s: sheet %llu today %llu room %zu%s line %llu\n",
           call_names[c->which], (unsigned long long)c->sheet,
           (unsigned long long)c->today, room, at_null ? " at NULL" : "",
           (unsigned long long)c->line);
    show_bytes(takes_rows(c->which) ? "rows" : "file", c->file.bytes,
               c->file.len);
    if (c->which == WRITES) {
        printf("  date %llu client %llu from %llu to %llu\n",
               (unsigned long long)c->date, (unsigned long long)c->client,
               (unsigned long long)c->from, (unsigned long long)c->to);
        show_bytes("texts", c->texts.bytes, c->texts.len);
        show_bytes("name", c->name.bytes, c->name.len);
    }
    if (takes_register(c->which))
        show_register(c);
}

void show_outcome(const char *who, const struct outcome *o)
{
    printf("  %s number %llu and", who, (unsigned long long)o->number);
    for (size_t i = 0; i < OUTCOME_WORDS; i++)
        printf(" %llu", (unsigned long long)o->words[i]);
    printf("\n");
}
