/* The filling pass over a file that has been accepted. */
#ifndef PEER_FILL_H
#define PEER_FILL_H

#include "bytes.h"
#include "sheet.h"

/* There is room for every row of the file. */
void peer_fill(struct bytes file, const struct peer_sheet *sheet,
               uint8_t *rows);

#endif
