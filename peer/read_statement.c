/* Reading statements: the records are judged, and if they are right and there
   is room, rows are filled from them. */
#include "peer.h"
#include "statement_sums.h"

static struct peer_statement_answer refused(uint64_t number, uint64_t line,
                                            uint64_t byte)
{
    return (struct peer_statement_answer){number, line, byte, 0, 0};
}

/* A fault of the statement in hand is its head's, some records back. */
static struct peer_statement_answer refused_sums(const struct statement *s)
{
    uint64_t fault = statement_fault(s);
    return refused(statement_number(fault), s->head,
                   (s->head - 1) * RECORD_BYTES +
                       peer_record_place(ROW_HEAD, fault));
}

/* Number 0 with the count of rows, or a refusal.  An empty file needs no case
   of its own: its first record is cut short. */
static struct peer_statement_answer judge_records(struct bytes file)
{
    struct statement s = {0};
    uint64_t line = 0, words[STATEMENT_WORDS];
    size_t at = 0;
    do {
        uint64_t kind = peer_record_kind(file, at);
        line++;
        if (!statement_goes_on(&s, kind))
            return refused(50, line, at);
        if (kind == ROW_HEAD && statement_fault(&s) != 0)
            return refused_sums(&s);
        size_t fault = peer_record_take(file.data + at, kind, words);
        if (fault != 0)
            return refused(51, line, at + fault);
        statement_take(&s, line, words);
        at += RECORD_BYTES;
    } while (at != file.len);
    if (statement_fault(&s) != 0)
        return refused_sums(&s);
    return (struct peer_statement_answer){0, 0, 0, line, 0};
}

struct peer_statement_answer peer_statement_read(const uint8_t *file,
                                                 size_t len, uint8_t *rows,
                                                 size_t rows_len)
{
    struct bytes lent = {file, len};
    struct peer_statement_answer answer = judge_records(lent);
    if (answer.number != 0)
        return answer;
    if (rows_len / STATEMENT_ROW_BYTES < answer.rows)
        return (struct peer_statement_answer){16, 0, 0, 0, answer.rows};
    for (size_t at = 0; at != len; at += RECORD_BYTES) {
        peer_record_fill(file + at, peer_record_kind(lent, at), rows);
        rows += STATEMENT_ROW_BYTES;
    }
    return answer;
}
