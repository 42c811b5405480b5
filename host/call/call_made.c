#include "call_made.h"

struct call call_of_made(enum which which, const struct made *made)
{
    return (struct call){
        .which = which,
        .file = {made->file.data, made->file.len},
        .sheet = made->sheet,
        .today = made->today,
    };
}

struct call call_of_registered(const struct made *made, const struct text *reg)
{
    struct call c = call_of_made(READS_REGISTERED, made);
    c.reg = (struct held){reg->data, reg->len};
    return c;
}

struct call call_of_register(enum which which, const struct text *reg)
{
    return (struct call){.which = which, .reg = {reg->data, reg->len}};
}

struct call call_of_draft(const struct draft *draft)
{
    return (struct call){
        .which = WRITES,
        .file = {draft->rows.data, draft->rows.len},
        .texts = {draft->texts.data, draft->texts.len},
        .name = {draft->name, draft->name_len},
        .date = draft->date,
        .client = draft->client,
        .from = draft->from,
        .to = draft->to,
        .sheet = draft->sheet,
        .today = draft->today,
    };
}

struct call call_of_statement(enum which which, const struct text *bytes)
{
    return (struct call){.which = which, .file = {bytes->data, bytes->len}};
}
