#include "ledger.h"

#include <stdlib.h>

struct span line_from(const struct ledger *l, size_t at, size_t *next)
{
    const uint8_t *bytes = l->text.bytes;
    size_t end = at, len = l->text.len;
    while (end < len && bytes[end] != '\n' && bytes[end] != '\r')
        end++;
    *next = end < len ? end + 1 : end;
    if (*next < len && bytes[end] == '\r' && bytes[*next] == '\n')
        ++*next;
    return (struct span){at, end - at};
}

struct span ledger_span(const struct ledger *l, uint64_t row, uint64_t field)
{
    if (row == 0 && field < HEADER_FIELDS)
        return l->head[field];
    if (row == 0 || row > l->count || field >= ABO_ROW_WORDS)
        return (struct span){l->text.len, 0};
    return l->spans[row - 1][field];
}

struct span ledger_line(const struct ledger *l, size_t place,
                        uint64_t *number)
{
    struct span found = {0, 0};
    uint64_t count = 0;
    *number = 1;
    for (size_t at = 0; at < l->text.len && at <= place;) {
        struct span line = line_from(l, at, &at);
        count++;
        if (line.len > 0 || place < l->text.len) {
            found = line;
            *number = count;
        }
    }
    return found;
}

void ledger_free(struct ledger *l)
{
    recoded_free(&l->text);
    free(l->rows);
    free(l->spans);
}
