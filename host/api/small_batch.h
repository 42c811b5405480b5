/*
 * The batch that tests of the headers begin with: an account file, a group and
 * an item whose text has four bytes.  C99 and C++11 alike.
 */
#ifndef HOST_API_SMALL_BATCH_H
#define HOST_API_SMALL_BATCH_H

#include <abo.h>
#include <string.h>

enum { SMALL_ROWS = 3, SMALL_TEXT = 4 };

/* Made and due on this day. */
static inline void make_small_batch(union abo_row *rows,
                                    struct abo_header *header, uint64_t day)
{
    memset(rows, 0, SMALL_ROWS * sizeof *rows);
    memset(header, 0, sizeof *header);
    rows[0].file.row = ABO_ROW_FILE;
    rows[0].file.kind = 1501;
    rows[0].file.number = 1001;
    rows[1].group.row = ABO_ROW_GROUP;
    rows[1].group.due = day;
    rows[1].group.payer.prefix = 19;
    rows[1].group.payer.base = 19;
    rows[2].item.row = ABO_ROW_ITEM;
    rows[2].item.payee.base = 5152046;
    rows[2].item.bank = 800;
    rows[2].item.amount = 1;
    rows[2].item.priority = ABO_PRIORITY_USUAL;
    rows[2].item.part[0].length = SMALL_TEXT;
    header->date = day;
    header->from = 1;
    header->to = 999;
    abo_set_name(header, "Jablko a syn");
}

#endif
