/* The command line of the order book. */
#ifndef ORDERBOOK_ARGUMENTS_H
#define ORDERBOOK_ARGUMENTS_H

#include <stdbool.h>
#include <stdint.h>

#include "recode.h"

enum wish { MAKE_FILE, READ_FILE, HELP, VERSION, MISTAKE };

struct arguments {
    const char *from; /* the ledger, or the file that is read */
    const char *out;  /* NULL for standard output */
    const char *paid; /* a statement; NULL if none is given */
    const char *reg;  /* the register of the day's numbers, so too */
    uint64_t sheet, day;
    enum encoding encoding;
};

/* What is wished for.  A mistake has been told on standard error: among them a
 * day that is not real, and output that would take the ledger's place. */
enum wish take_arguments(struct arguments *a, char **words);

/* Does the file go to standard output, by whatever name? */
bool to_standard(const struct arguments *a);

#endif
