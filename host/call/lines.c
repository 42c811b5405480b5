#include "lines.h"
#include "../generate/memory.h"

#include <stdbool.h>

static void add_line(struct lines *l, size_t start, size_t end)
{
    if (l->count == l->room) {
        l->room = 2 * l->room + 64;
        l->list = resized(l->list, l->room * sizeof *l->list);
    }
    l->list[l->count++] = (struct abo_found){1, start, end - start};
}

/* Each CR and each LF ends a line, but an LF behind a CR belongs to it. */
void split_lines(struct lines *l, const uint8_t *file, size_t len)
{
    size_t start = 0;
    l->count = 0;
    for (size_t i = 0; i < len; i++) {
        bool second = file[i] == '\n' && i > 0 && file[i - 1] == '\r';
        if (second)
            start = i + 1;
        else if (file[i] == '\r' || file[i] == '\n') {
            add_line(l, start, i);
            start = i + 1;
        }
    }
    if (start < len)
        add_line(l, start, len);
    add_line(l, len, len);
}

struct abo_found line_numbered(const struct lines *l, uint64_t number)
{
    if (number == 0 || number > l->count)
        return (struct abo_found){0, 0, 0};
    return l->list[number - 1];
}
