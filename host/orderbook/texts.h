/* Texts of a ledger: how they are set off, and which letters they may have. */
#ifndef ORDERBOOK_TEXTS_H
#define ORDERBOOK_TEXTS_H

#include "words.h"

/* Is it a quotation mark of print, or an apostrophe, which word processors and
 * people put where the plain mark " is meant? */
bool is_fancy_mark(uint8_t byte);

/* The rest of a line as a text, which may stand between quotation marks. If it
 * does, the closing mark ends the line, and the span becomes what is inside.
 * If it does not, it neither begins with another mark nor has a no-break space
 * at an end, and holds nothing that was meant for a comment. `what` begins a
 * sentence: "the message". */
bool take_text(struct ledger *l, struct span *text, const char *what,
               bool *set_off);

/* A text that goes into the file has letters of Windows-1250 alone. */
bool has_letters(struct ledger *l, struct span text, const char *what);

#endif
