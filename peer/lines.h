/* The kinds of lines, known by their start (document 01, Lines).  Each kind is
   one bit, so that what is due can be a set. */
#ifndef PEER_LINES_H
#define PEER_LINES_H

#include "bytes.h"

enum {
    LINE_FIRST = 1,
    LINE_FILE = 2,
    LINE_GROUP = 4,
    LINE_ITEM = 8,
    LINE_GROUP_END = 16,
    LINE_FILE_END = 32,
    LINE_NONE = 64 /* the file has ended */
};

static inline unsigned line_kind(struct bytes b, size_t at)
{
    if (at == b.len)
        return LINE_NONE;
    if (starts_with(b, at, "UHL1", 4))
        return LINE_FIRST;
    if (b.len - at < 2)
        return LINE_ITEM;
    uint8_t second = b.data[at + 1];
    if (second != ' ' && second != '+')
        return LINE_ITEM;
    switch (b.data[at]) {
    case '1':
        return second == ' ' ? LINE_FILE : LINE_ITEM;
    case '2':
        return second == ' ' ? LINE_GROUP : LINE_ITEM;
    case '3':
        return LINE_GROUP_END;
    case '5':
        return LINE_FILE_END;
    default:
        return LINE_ITEM;
    }
}

#endif
