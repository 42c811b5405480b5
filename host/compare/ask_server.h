/* Calls of a server's library, by the slot, and of the second program: the
   whole answer, the bytes written and all bytes around what was lent. */
#ifndef HOST_ASK_SERVER_H
#define HOST_ASK_SERVER_H

#include "../call/call.h"

/* One call.  Around each slice lies the fill, and all slices begin so many
   bytes past a multiple of 16. */
struct lent_call {
    uint64_t seed;
    struct call call;
    size_t room;
    bool no_pointer; /* if there is no room */
    uint8_t fill;
    unsigned skew;
};

/* Starts a server by these words. */
void begin_asking(char **command);

/* Lends one call more.  They are made and compared by and by. */
void ask_server(const struct lent_call *a);

/* Has all calls compared that are still lent, and the server ended. */
void end_asking(void);

/* How often each number came. */
extern unsigned long server_counts[NUMBERS];

#endif
