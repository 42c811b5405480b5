/*
 * The memory that a comparison shares with a server, which makes the library's
 * calls in a process of its own (library_server.c): so the library alone is
 * emulated where it must be.
 *
 * The memory is the server's file 3.  A byte on its standard input is the
 * number of a slot that is filled, and the same byte goes back when all calls
 * of the slot are made.  All numbers are of 64 bits and the lowest byte comes
 * first, so that both processes see the same.
 */
#ifndef HOST_SHARED_CALLS_H
#define HOST_SHARED_CALLS_H

#include "../call/call.h"

enum { SHARED_MEMORY = 3, SLOTS = 2, SLOT_CALLS = 256, SLOT_BYTES = 1 << 22 };

/* Bytes of the slot; nowhere stands for NULL. */
#define NOWHERE UINT64_MAX
struct lent {
    uint64_t place, len;
};

struct request {
    uint64_t which, sheet, today, date, client, from, to, line, given;
    struct lent file, texts, name, reg, out;
    struct outcome answer; /* the server's */
};

struct slot {
    uint64_t count;
    volatile uint64_t made; /* calls that have come back */
    struct request requests[SLOT_CALLS];
    uint8_t bytes[SLOT_BYTES];
};

_Static_assert(sizeof(struct outcome) == 120 && sizeof(struct request) == 272,
               "the layout is another one here");

/* What the call asks, with nothing lent yet. */
struct request request_of_call(const struct call *c);

/* The call, its slices lying in these bytes of a slot. */
struct call call_of_request(const struct request *r, uint8_t *bytes);

#endif
