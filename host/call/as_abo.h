/* The second program's answers in the library's types, so that both are
   compared and shown by the same code. */
#ifndef HOST_AS_ABO_H
#define HOST_AS_ABO_H

#include <abo.h>
#include <string.h>

#include "../../peer/peer.h"

static inline struct abo_answer answer_of_peer(struct peer_answer p)
{
    struct abo_answer a = {
        p.number, p.line, p.byte, p.rows, p.warnings, p.needed,
        {p.header.date, p.header.client, p.header.from, p.header.to, {0}},
    };
    memcpy(a.header.name, p.header.name, sizeof a.header.name);
    return a;
}

static inline struct abo_written written_of_peer(struct peer_written w)
{
    return (struct abo_written){w.number, w.row, w.field, w.bytes};
}

static inline struct abo_text text_of_peer(struct peer_text t)
{
    return (struct abo_text){t.number, t.bytes};
}

static inline struct abo_list list_of_peer(struct peer_list l)
{
    return (struct abo_list){l.number, l.refused, l.count, l.needed, l.sheets};
}

static inline struct abo_register_answer
register_of_peer(struct peer_register_answer a)
{
    return (struct abo_register_answer){a.number, a.value};
}

static inline struct abo_statement_answer
statement_of_peer(struct peer_statement_answer a)
{
    return (struct abo_statement_answer){a.number, a.line, a.byte, a.rows,
                                         a.needed};
}

#endif
