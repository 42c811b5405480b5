/* What a bank would pay, as a table: the rows that reading a file gave. */
#ifndef ORDERBOOK_TABLE_H
#define ORDERBOOK_TABLE_H

#include <stddef.h>
#include <stdint.h>
#include <stdio.h>

#include <abo.h>

/* The texts of the rows lie in the file that was read. */
void show_table(FILE *out, const union abo_row *rows, size_t count,
                const uint8_t *file);

#endif
