#include "call_peer.h"
#include "as_abo.h"
#include "lines.h"

static struct outcome call_statement(const struct call *c, uint8_t *out,
                                     size_t room)
{
    if (c->which == READS_STATEMENT) {
        struct abo_statement_answer a = statement_of_peer(
            peer_statement_read(c->file.bytes, c->file.len, out, room));
        return outcome_of_statement(&a);
    }
    struct abo_written w = written_of_peer(
        peer_statement_write(c->file.bytes, c->file.len, out, room));
    return outcome_of_written(&w);
}

static struct outcome call_register(const struct call *c)
{
    const struct held *r = &c->reg;
    struct peer_register_answer p;
    if (c->which == STARTS)
        p = peer_register_start(c->date, r->bytes, r->len);
    else if (c->which == ASKS_LOWEST)
        p = peer_register_lowest(r->bytes, r->len);
    else if (c->which == ASKS_FREE)
        p = peer_register_free(r->bytes, r->len);
    else
        p = peer_register_give_back(r->bytes, r->len, c->given);
    struct abo_register_answer a = register_of_peer(p);
    return outcome_of_register(&a);
}

struct outcome call_peer(const struct call *c, uint8_t *out, size_t room)
{
    if (c->which == READS) {
        struct abo_answer a = answer_of_peer(peer_read(
            c->file.bytes, c->file.len, c->sheet, c->today, out, room));
        return outcome_of_answer(&a);
    }
    if (c->which == WRITES) {
        struct abo_written w = written_of_peer(peer_write(
            c->file.bytes, c->file.len, c->texts.bytes, c->texts.len, c->date,
            c->name.bytes, c->name.len, c->client, c->from, c->to, c->sheet,
            c->today, out, room));
        return outcome_of_written(&w);
    }
    if (c->which == FINDS) {
        static struct lines lines;
        split_lines(&lines, c->file.bytes, c->file.len);
        struct abo_found f = line_numbered(&lines, c->line);
        return outcome_of_found(&f);
    }
    if (of_statement(c->which))
        return call_statement(c, out, room);
    if (of_register(c->which))
        return call_register(c);
    if (c->which == READS_REGISTERED) {
        struct abo_answer a = answer_of_peer(peer_read_registered(
            c->file.bytes, c->file.len, c->sheet, c->today, out, room,
            c->reg.bytes, c->reg.len));
        return outcome_of_answer(&a);
    }
    if (c->which == LISTS) {
        struct abo_list l = list_of_peer(peer_findings(
            c->file.bytes, c->file.len, c->sheet, c->today, out, room));
        return outcome_of_list(&l);
    }
    struct abo_text t = text_of_peer(peer_findings_text(
        c->file.bytes, c->file.len, c->sheet, c->today, out, room));
    return outcome_of_text(&t);
}
