/*
 * A ledger in Windows-1250, which banks read: one byte is one letter, one
 * column and one byte of the file that is written. A letter that Windows-1250
 * has no place for leaves a byte that is no text byte, and stands in a list
 * beside, so that it can be named where it is a fault.
 */
#ifndef ORDERBOOK_RECODE_H
#define ORDERBOOK_RECODE_H

#include <stdbool.h>
#include <stddef.h>
#include <stdint.h>

#include "../common/input.h"

enum encoding { IN_UTF_8, IN_WINDOWS_1250 };

/* A letter that Windows-1250 has not, and its place in the recoded bytes. */
struct stranger {
    size_t at;
    uint32_t letter;
};

struct recoded {
    uint8_t *bytes;
    size_t len;
    struct stranger *strangers; /* in the order of their places */
    size_t count, room;
    bool mistaken;      /* the bytes are not what they were taken for .. */
    size_t mistaken_at; /* .. which is seen here first */
};

/* How encodings are spelled on a command line: utf-8, cp1250, windows-1250,
 * in either case. */
bool encoding_named(const char *word, enum encoding *encoding);

/* A byte order mark at the front is passed over. Bytes that are no UTF-8 stay
 * as they are. Bytes taken for Windows-1250 are mistaken if all above 127
 * spell UTF-8, which hardly comes about by chance. False if there is no
 * memory. */
bool recode(struct recoded *r, const struct input *from,
            enum encoding encoding);

/* The first stranger of `len` bytes from `at` on, or NULL. */
const struct stranger *first_stranger(const struct recoded *r, size_t at,
                                      size_t len);

/* "the letter ễ (U+1EC5)", or "the letter U+202F" if it cannot be seen or
 * would do something to a terminal. */
enum { LETTER_ROOM = 40 };
void spell_letter(char text[LETTER_ROOM], uint32_t letter);

void recoded_free(struct recoded *r);

#endif
