#include "plan.h"

uint8_t telling_byte(struct dice *d)
{
    static const uint8_t bytes[] = {
        0,   1,   9,   '\n', '\r', 31,  ' ', ' ', '!', '*', '+', '+', ',', '-',
        '.', '/', '0', '0',  '1',  '2', '3', '4', '5', '8', '9', ':', 'A', 'H',
        'L', 'N', 'P', 'U',  'V',  'a', '{', '|', '|', '}', '~', 126, 127, 128,
        255,
    };
    return one_in(d, 8) ? (uint8_t)roll(d) : PICK(d, bytes);
}

void nudge(struct plan *p, size_t start)
{
    struct text *t = p->out;
    size_t len = t->len - start;
    uint8_t byte = telling_byte(&p->dice);
    if (len == 0) {
        text_byte(t, byte);
        return;
    }
    size_t at = start + below(&p->dice, len);
    switch (below(&p->dice, 5)) {
    case 0: /* another byte */
        t->data[at] = byte;
        break;
    case 1: /* one more */
        text_replace(t, at + one_in(&p->dice, 2), 0, &byte, 1);
        break;
    case 2: /* one twice */
        byte = t->data[at];
        text_replace(t, at, 0, &byte, 1);
        break;
    case 3: /* one less */
        text_replace(t, at, 1, NULL, 0);
        break;
    default: /* its neighbour: a digit becomes another one, or none */
        t->data[at] = (uint8_t)(t->data[at] + (one_in(&p->dice, 2) ? 1 : -1));
    }
}

void spoil_field(struct plan *p, size_t start, const char *const *aims,
                 size_t count)
{
    if (one_in(&p->dice, 3)) {
        nudge(p, start);
        return;
    }
    p->out->len = start;
    text_words(p->out, aims[below(&p->dice, count)]);
}
