/* What `orderbook --help` prints: the command line, and the whole format of a
 * ledger. */
#ifndef ORDERBOOK_HELP_H
#define ORDERBOOK_HELP_H

#include <stdio.h>

void print_help(FILE *to);

#endif
