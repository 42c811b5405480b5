/* Stacks of 64 KiB, between pages that nobody may touch, to run calls on: one for
   each call, so that it is known how much each has used. */
#ifndef HOST_NARROW_H
#define HOST_NARROW_H

#include <stddef.h>

enum { NARROW_STACK = 64 * 1024, NARROW_STACKS = 12 };

/* Runs the work on one of the stacks and comes back.  It takes no argument,
   since a context takes no pointers; what it wants lies elsewhere. */
void run_narrow(unsigned which, void (*work)(void));

/* The most of it that any work has used so far. */
size_t narrow_used(unsigned which);

#endif
