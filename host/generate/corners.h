/* Files that are hardly files: nothing, one byte over and over, lines of 128 KiB
   and of a mebibyte. */
#ifndef HOST_CORNERS_H
#define HOST_CORNERS_H

#include <stdbool.h>

#include "generate.h"

/* Makes the file at a place from 0 on; false behind the last one.  The same
   bytes are to be read on every sheet; the frame around a long line is spelled
   for the one given. */
bool corner_file(struct made *made, unsigned sheet, unsigned place);

#endif
