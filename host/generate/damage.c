#include "damage.h"
#include "plan.h"

#include <string.h>

static bool is_end(uint8_t byte)
{
    return byte == '\n' || byte == '\r';
}

/* The start of the line that a place lies in. */
static size_t line_start(const struct text *t, size_t at)
{
    while (at > 0 && !is_end(t->data[at - 1]))
        at--;
    return at;
}

/* Behind the line's end. */
static size_t line_behind(const struct text *t, size_t at)
{
    while (at < t->len && !is_end(t->data[at]))
        at++;
    if (at + 1 < t->len && t->data[at] == '\r' && t->data[at + 1] == '\n')
        at++;
    return at < t->len ? at + 1 : at;
}

static size_t any_line(const struct text *t, struct dice *d)
{
    return line_start(t, below(d, t->len));
}

/* A line stands again at another one's place. */
static void copy_line(struct text *t, struct dice *d)
{
    size_t from = any_line(t, d), to = any_line(t, d);
    struct text line = {0};
    text_bytes(&line, t->data + from, line_behind(t, from) - from);
    text_replace(t, to, 0, line.data, line.len);
    text_free(&line);
}

static void drop_line(struct text *t, struct dice *d)
{
    size_t from = any_line(t, d);
    text_replace(t, from, line_behind(t, from) - from, NULL, 0);
}

/* A line and the one behind it change places. */
static void swap_lines(struct text *t, struct dice *d)
{
    size_t from = any_line(t, d), middle = line_behind(t, from);
    size_t behind = line_behind(t, middle);
    struct text line = {0};
    text_bytes(&line, t->data + from, middle - from);
    memmove(t->data + from, t->data + middle, behind - middle);
    memcpy(t->data + from + (behind - middle), line.data, line.len);
    text_free(&line);
}

static void add_line(struct text *t, struct dice *d)
{
    static const char *const lines[] = {
        "\n", "\r", "\r\n", "3 +\n", "5 +\r\n", "3+\n", "5+\n", "x\n", "UHL1\n",
        "1 1501 000000 0300\n", "2 5001 020118\n", "2  5001 020118\n",
        "705 5001 42 03000558\n", "705 5001 42 03000558  \n", "3\n", "5\n",
        "1\n", "2\n", "4 +\n", " \n", "2+\n", "1+\n", "UHL\n", "3 ", "5 +",
    };
    const char *line = PICK(d, lines);
    size_t at = one_in(d, 4) || t->len == 0 ? t->len : any_line(t, d);
    text_replace(t, at, 0, line, strlen(line));
}

static void change_bytes(struct text *t, struct dice *d)
{
    size_t at = below(d, t->len);
    uint8_t byte = telling_byte(d);
    switch (below(d, 5)) {
    case 0:
        t->data[at] = byte;
        break;
    case 1:
        text_replace(t, at, 0, &byte, 1);
        break;
    case 2:
        text_replace(t, at, 1, NULL, 0);
        break;
    case 3: /* some at once */
        text_replace(t, at, between(d, 1, t->len - at), NULL, 0);
        break;
    default: /* with its neighbour */
        if (at + 1 < t->len) {
            t->data[at] = t->data[at + 1];
            t->data[at + 1] = byte;
        }
    }
}

static void damage_once(struct text *t, struct dice *d)
{
    if (t->len == 0) {
        add_line(t, d);
        return;
    }
    switch (below(d, 8)) {
    case 0:
        copy_line(t, d);
        break;
    case 1:
        drop_line(t, d);
        break;
    case 2:
        swap_lines(t, d);
        break;
    case 3:
        add_line(t, d);
        break;
    case 4: /* an early end */
        t->len = below(d, t->len);
        break;
    default:
        change_bytes(t, d);
    }
}

void damage(struct text *file, struct dice *d)
{
    for (size_t times = between(d, 1, 3); times > 0; times--)
        damage_once(file, d);
}
