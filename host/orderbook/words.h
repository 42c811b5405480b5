/* The words of a ledger's line, and what is said where one is not known. */
#ifndef ORDERBOOK_WORDS_H
#define ORDERBOOK_WORDS_H

#include "ledger.h"

enum { NO_BREAK_SPACE = 0xa0 }; /* in Windows-1250 */

/* What is left of a line. */
struct cursor {
    size_t at, end;
};

bool is_blank(uint8_t byte);
bool is_digit(uint8_t byte);

/* Letters of ASCII, and all above it. */
bool is_letter(uint8_t byte);

/* The bytes up to the next blank; of length 0 at the line's end. */
struct span next_word(const struct ledger *l, struct cursor *c);

/* All that is left of the line, without the blanks around it. */
struct span rest_of(const struct ledger *l, struct cursor *c);

/* Where in the span the byte stands first, counted from the span's start; the
 * span's length if it is not there. */
size_t find_byte(const struct ledger *l, struct span in, uint8_t byte);
bool holds_byte(const struct ledger *l, struct span in, uint8_t byte);

/* Is the word the same but for capitals? */
bool is_word(const struct ledger *l, struct span word, const char *small);

/* Keeps the sentence, made as by printf, and its place; names what cannot be
 * seen there and is easily written by mistake. Gives back false. */
bool fail(struct ledger *l, struct span at, const char *form, ...);

/* One digit or more. A number that 64 bits do not hold is the largest that
 * they do, which no field of a batch takes. */
bool digits_in(const struct ledger *l, struct span at, uint64_t *number);

/* Digits, or a prefix, a dash and digits. */
bool account_in(const struct ledger *l, struct span at,
                struct abo_account *account);

#endif
