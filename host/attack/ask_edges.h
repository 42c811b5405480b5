/* Any of the twelve calls, made by the library and by the second program, which
   for the line of a number is lines.h: every slice at the edge of a page, the
   library on a stack of 64 KiB. */
#ifndef HOST_ASK_EDGES_H
#define HOST_ASK_EDGES_H

#include "../call/call.h"
#include "edge.h"

/* What the call reads lies in these, and where it may not write.  Each program
   is lent a copy of the call's register, at this edge. */
struct scene {
    struct edge parts[3];
    size_t parts_used;
    struct edge ours, theirs;
    struct edge our_register, their_register;
    enum edge_at register_at;
};

/* Makes the call twice, with room for so many bytes.  Gives back NULL, or what
   is wrong; the answer is the second program's. */
const char *ask_edges(struct scene *s, const struct call *c, size_t room,
                      enum edge_at at, uint8_t fill, struct outcome *answer);

/* The same as one check of a test, which shows what was wrong.  Gives back the
   answer. */
struct outcome check_edges(struct scene *s, const char *what, uint64_t seed,
                           const struct call *c, size_t room, enum edge_at at,
                           uint8_t fill);

/* All that is known of the last call made. */
void show_last_call(void);

/* How often each call gave each number, in those that were checked; and the
   same as a table, with how much of its stack each call has used. */
extern unsigned long edge_counts[CALLS][NUMBERS];
void report_edges(void);

#endif
