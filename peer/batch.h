/* A batch lent for writing: rows, their texts and a header. */
#ifndef PEER_BATCH_H
#define PEER_BATCH_H

#include "account.h"
#include "bytes.h"
#include "sheet.h"

/* Word 0 of a row. */
enum { ROW_FILE = 1, ROW_GROUP = 2, ROW_ITEM = 3 };

/* Words of a row, which are also the numbers of its fields. */
enum {
    FILE_KIND = 1,
    FILE_NUMBER = 2,
    GROUP_DATE = 1,
    GROUP_PAYER = 2,
    ITEM_PAYER = 1,
    ITEM_PAYEE = 3,
    ITEM_BANK = 5,
    ITEM_AMOUNT = 6,
    ITEM_VARIABLE = 7,
    ITEM_SPECIFIC = 8,
    ITEM_CONSTANT = 9,
    ITEM_PRIORITY = 10,
    ITEM_PARTS = 11,
    ITEM_NAME = 19,
    ITEM_REFERENCE = 21
};

/* Fields of the header. */
enum {
    HEADER_DATE = 1,
    HEADER_NAME = 2,
    HEADER_CLIENT = 3,
    HEADER_FROM = 4,
    HEADER_TO = 5
};

struct batch {
    struct bytes rows, texts, name;
    uint64_t date, client, from, to;
    const struct peer_sheet *sheet;
    uint64_t today, month_ahead; /* as day numbers */
};

static inline uint64_t row_word(const uint8_t *row, size_t word)
{
    return load_word(row + 8 * word);
}

static inline struct account row_account(const uint8_t *row, size_t word)
{
    return (struct account){row_word(row, word), row_word(row, word + 1)};
}

/* A text of a row that has been judged; only its length where it is empty. */
static inline struct bytes row_text(const struct batch *b, const uint8_t *row,
                                    size_t word)
{
    size_t length = (size_t)row_word(row, word + 1);
    if (length == 0)
        return (struct bytes){NULL, 0};
    return (struct bytes){b->texts.data + (size_t)row_word(row, word), length};
}

/* The word of a message part, from 0. */
static inline size_t part_word(size_t part)
{
    return ITEM_PARTS + 2 * part;
}

/* How many parts are spelled: up to the last one that is not empty. */
static inline size_t parts_used(const uint8_t *row)
{
    size_t parts = MOST_PARTS;
    while (parts > 0 && row_word(row, part_word(parts - 1) + 1) == 0)
        parts--;
    return parts;
}

#endif
