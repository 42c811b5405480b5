/* A batch lent for writing, with the arguments to write it by. */
#ifndef HOST_DRAFT_H
#define HOST_DRAFT_H

#include <abo.h>

#include "text.h"

enum { NAME_ROOM = ABO_NAME_BYTES + 4 };

struct draft {
    struct text rows, texts;
    uint8_t name[NAME_ROOM];
    size_t name_len;
    uint64_t date, client, from, to;
    uint64_t sheet, today;
};

static inline void free_draft(struct draft *draft)
{
    text_free(&draft->rows);
    text_free(&draft->texts);
}

#endif
