/* One statement read, or its rows written, by the library and by the second
   program, with rooms of every kind: the whole answer, the bytes written and the
   bytes around them. */
#ifndef HOST_ASK_STATEMENT_H
#define HOST_ASK_STATEMENT_H

#include "../call/call.h"
#include "../generate/text.h"

/* How often each number came in reading and in writing; and where: in reading
   at each place of a record 074 or 075, in writing at each word of a row of
   either kind. */
enum { OF_HEAD, OF_MOVEMENT, OF_NONE, STATEMENT_KINDS };
struct statement_counts {
    unsigned long numbers[NUMBERS];
    unsigned long places[NUMBERS][STATEMENT_KINDS][ABO_RECORD_BYTES];
};
extern struct statement_counts statement_counts[2]; /* reading, writing */

/* None, then too little, exact and plenty if only room is wanting, else any.
   Gives back the number with no room. */
uint64_t compare_statement(const char *what, uint64_t seed, enum which which,
                           const struct text *bytes);

/* With room for so many bytes and no more; at NULL if there is none. */
void compare_statement_once(const char *what, uint64_t seed, enum which which,
                            const uint8_t *bytes, size_t len, size_t room);

#endif
