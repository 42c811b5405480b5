/* Files of a wanted size, all but one kind valid, such as offices send them and such as are as
   unlike them as the sheets allow: bench/ measures what their bytes cost, and
   the tool is tried on a large one. */
#ifndef HOST_SIZED_H
#define HOST_SIZED_H

#include <stdbool.h>

#include "text.h"

struct sized_file {
    struct text bytes;
    size_t items, rows; /* a row for each account file, group and item */
};

/*
 * Makes a file of about so many bytes.  Its kind is one of
 *
 *   wages        one payer, short lines, half of them with a word
 *   invoices     each with its own payer, symbols and two parts of text
 *   shortest     items of 17 bytes
 *   longest      every field as long as it may be
 *   groups       groups of one shortest item, 99,999 in an account file
 *   files        account files of one such group
 *   collections  C and P alone, which judge each one's day: the lines of wages
 *                in account files of kind 1502, due tomorrow
 *   cut          C alone: parts of 4,000 bytes, which are cut to 35
 *   warned       C alone: short items, each with a part that is cut by a byte
 *   late         wages, refused at their end, where the last line is missing
 *
 * It ends sooner where the sheet does: at 1,000 items on S, at 1,000 account
 * files on all.  Gives back false if the sheet has no such kind.
 */
bool make_sized_file(struct sized_file *file, unsigned sheet, const char *kind,
                     size_t bytes);

#endif
