#include "place.h"

#include <string.h>

#include "letters.h"

/* The widest piece of a line that is shown, so that it and its marks fit into 80 columns. */
enum { WIDEST = 72 };

/* A piece of a line: where it starts and ends. */
struct piece {
    size_t start, end;
};

/* Cuts a long line around the place: first to its middle, then moved so that no room is left at the line's end. */
static struct piece cut_around(size_t len, size_t at)
{
    struct piece cut = {0, len};
    if (len <= WIDEST)
        return cut;
    if (at > WIDEST / 2)
        cut.start = at - WIDEST / 2;
    if (cut.start > len - WIDEST)
        cut.start = len - WIDEST;
    cut.end = cut.start + WIDEST;
    return cut;
}

void show_place(FILE *to, const uint8_t *line, size_t len, size_t at,
                size_t width)
{
    struct piece cut = cut_around(len, at);
    const char *before = cut.start > 0 ? ".." : "";
    fprintf(to, "  %s", before);
    show_1250(to, line + cut.start, cut.end - cut.start);
    fprintf(to, "%s\n  %*s^", cut.end < len ? ".." : "", (int)(strlen(before) + (at - cut.start)), "");
    for (size_t i = at + 1; i < at + width && i < cut.end; i++)
        fputc('~', to);
    fputc('\n', to);
}
