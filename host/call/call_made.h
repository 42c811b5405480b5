/* Calls of what the generators make. */
#ifndef HOST_CALL_MADE_H
#define HOST_CALL_MADE_H

#include "../generate/draft.h"
#include "../generate/generate.h"
#include "call.h"

/* A file to be read or explained, to list what is found in, or to find a line
   in. */
struct call call_of_made(enum which which, const struct made *made);

/* A file to be read against a register; nothing but a register. */
struct call call_of_registered(const struct made *made, const struct text *reg);
struct call call_of_register(enum which which, const struct text *reg);

/* A statement to be read, or its rows to be written. */
struct call call_of_statement(enum which which, const struct text *bytes);

/* A batch to be written. */
struct call call_of_draft(const struct draft *draft);

#endif
