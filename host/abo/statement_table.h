/* A statement told to a person, as a table, or to a spreadsheet, as lines of cells. */
#ifndef HOST_ABO_STATEMENT_TABLE_H
#define HOST_ABO_STATEMENT_TABLE_H

#include <stdio.h>

#include "../common/statement.h"

/* For each statement its head, and its movements with the balance behind each. */
void print_statement(FILE *to, const struct statement *s);

/* A line of titles and a line for each movement, with its statement's account and number: cells divided by commas, texts between
   quotation marks, UTF-8. */
void print_statement_csv(FILE *to, const struct statement *s);

/* "2 statements, 14 movements". */
void print_statement_count(FILE *to, const struct statement *s);

#endif
