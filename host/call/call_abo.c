#include "call_abo.h"

static struct outcome call_statement(const struct call *c, uint8_t *out,
                                     size_t room)
{
    if (c->which == READS_STATEMENT) {
        struct abo_statement_answer a =
            abo_statement_read(c->file.bytes, c->file.len, out, room);
        return outcome_of_statement(&a);
    }
    struct abo_written w =
        abo_statement_write(c->file.bytes, c->file.len, out, room);
    return outcome_of_written(&w);
}

static struct outcome call_register(const struct call *c)
{
    const struct held *r = &c->reg;
    struct abo_register_answer a;
    if (c->which == STARTS)
        a = abo_register_start(c->date, r->bytes, r->len);
    else if (c->which == ASKS_LOWEST)
        a = abo_register_lowest(r->bytes, r->len);
    else if (c->which == ASKS_FREE)
        a = abo_register_free(r->bytes, r->len);
    else
        a = abo_register_give_back(r->bytes, r->len, c->given);
    return outcome_of_register(&a);
}

struct outcome call_abo(const struct call *c, uint8_t *out, size_t room)
{
    if (c->which == READS) {
        struct abo_answer a = abo_read(c->file.bytes, c->file.len, c->sheet,
                                       c->today, out, room);
        return outcome_of_answer(&a);
    }
    if (c->which == WRITES) {
        struct abo_written w = abo_write(
            c->file.bytes, c->file.len, c->texts.bytes, c->texts.len, c->date,
            c->name.bytes, c->name.len, c->client, c->from, c->to, c->sheet,
            c->today, out, room);
        return outcome_of_written(&w);
    }
    if (c->which == FINDS) {
        struct abo_found f = abo_line(c->file.bytes, c->file.len, c->line);
        return outcome_of_found(&f);
    }
    if (of_statement(c->which))
        return call_statement(c, out, room);
    if (of_register(c->which))
        return call_register(c);
    if (c->which == READS_REGISTERED) {
        struct abo_answer a =
            abo_read_registered(c->file.bytes, c->file.len, c->sheet, c->today,
                                out, room, c->reg.bytes, c->reg.len);
        return outcome_of_answer(&a);
    }
    if (c->which == LISTS) {
        struct abo_list l = abo_findings(c->file.bytes, c->file.len, c->sheet,
                                         c->today, out, room);
        return outcome_of_list(&l);
    }
    struct abo_text t = abo_explain(c->file.bytes, c->file.len, c->sheet,
                                    c->today, out, room);
    return outcome_of_text(&t);
}
