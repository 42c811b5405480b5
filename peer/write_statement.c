/* Writing statements: rows are judged, and if they are right and there is room,
   spelled as records. */
#include "peer.h"
#include "statement_sums.h"

static struct peer_written refused(uint64_t number, uint64_t row,
                                   uint64_t field)
{
    return (struct peer_written){number, row, field, 0};
}

static struct peer_written refused_sums(const struct statement *s)
{
    uint64_t fault = statement_fault(s);
    return refused(statement_number(fault), s->head, fault);
}

/* Number 0 with the bytes of the file, or a refusal.  Where no rows are lent
   the first one is cut short. */
static struct peer_written judge_rows(struct bytes rows)
{
    struct statement s = {0};
    uint64_t row = 0, words[STATEMENT_WORDS];
    size_t at = 0;
    do {
        row++;
        if (rows.len - at < STATEMENT_ROW_BYTES)
            return refused(50, row, 0);
        peer_row_words(rows.data + at, words);
        if (!statement_goes_on(&s, words[0]))
            return refused(50, row, 0);
        if (words[0] == ROW_HEAD && statement_fault(&s) != 0)
            return refused_sums(&s);
        uint64_t fault = peer_record_fault(words);
        if (fault != 0)
            return refused(51, row, fault);
        statement_take(&s, row, words);
        at += STATEMENT_ROW_BYTES;
    } while (at != rows.len);
    if (statement_fault(&s) != 0)
        return refused_sums(&s);
    return (struct peer_written){0, 0, 0, row * RECORD_BYTES};
}

struct peer_written peer_statement_write(const uint8_t *rows, size_t rows_len,
                                         uint8_t *out, size_t out_len)
{
    struct peer_written answer = judge_rows((struct bytes){rows, rows_len});
    if (answer.number != 0)
        return answer;
    if (out_len < answer.bytes)
        return (struct peer_written){16, 0, 0, answer.bytes};
    for (size_t at = 0; at != rows_len; at += STATEMENT_ROW_BYTES) {
        peer_record_spell(rows + at, out);
        out += RECORD_BYTES;
    }
    return answer;
}
