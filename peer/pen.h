/* Words and numbers put down one behind another.  A pen without room only
   counts, so that a text's length comes from the same steps as the text. */
#ifndef PEER_PEN_H
#define PEER_PEN_H

#include "bytes.h"
#include "digits.h"

struct pen {
    uint8_t *out; /* NULL: nothing is written */
    uint64_t bytes;
};

enum { QUOTED_BYTES = 60 };

static inline void pen_bytes(struct pen *p, const void *bytes, size_t len)
{
    if (p->out != NULL)
        memcpy(p->out + (size_t)p->bytes, bytes, len);
    p->bytes += len;
}

static inline void pen_words(struct pen *p, const char *words)
{
    pen_bytes(p, words, strlen(words));
}

/* Twenty digits at most. */
static inline void pen_padded(struct pen *p, uint64_t value, size_t digits)
{
    uint8_t room[20];
    put_padded(room, value, digits);
    pen_bytes(p, room, digits);
}

static inline void pen_number(struct pen *p, uint64_t value)
{
    pen_padded(p, value, digits_of(value));
}

static inline void pen_range(struct pen *p, uint64_t least, uint64_t most)
{
    pen_number(p, least);
    pen_words(p, " to ");
    pen_number(p, most);
}

/* A day YYYYMMDD as YYYY-MM-DD. */
static inline void pen_day(struct pen *p, uint64_t day)
{
    pen_padded(p, day / 10000, 4);
    pen_words(p, "-");
    pen_padded(p, day / 100 % 100, 2);
    pen_words(p, "-");
    pen_padded(p, day % 100, 2);
}

/* A byte that a quotation cannot show as itself goes by its number. */
static inline void pen_quoted_byte(struct pen *p, uint8_t byte)
{
    static const char hex[] = "0123456789ABCDEF";
    const char escaped[4] = {'\\', 'x', hex[byte >> 4], hex[byte & 15]};
    if (byte < 32 || byte > 126 || byte == '"' || byte == '\\')
        pen_bytes(p, escaped, sizeof escaped);
    else
        pen_bytes(p, &byte, 1);
}

/* Bytes of a file, as many as a line can hold. */
static inline void pen_quote(struct pen *p, const uint8_t *bytes, uint64_t len)
{
    pen_words(p, "\"");
    for (size_t i = 0; i < len && i < QUOTED_BYTES; i++)
        pen_quoted_byte(p, bytes[i]);
    pen_words(p, "\"");
    if (len > QUOTED_BYTES) {
        pen_words(p, ", the first ");
        pen_number(p, QUOTED_BYTES);
        pen_words(p, " of ");
        pen_number(p, len);
        pen_words(p, " bytes");
    }
}

#endif
