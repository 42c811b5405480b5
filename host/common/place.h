/* A line of a file with a caret under a place in it. */
#ifndef HOST_COMMON_PLACE_H
#define HOST_COMMON_PLACE_H

#include <stddef.h>
#include <stdint.h>
#include <stdio.h>

/* Shows a line of Windows-1250 without its end, two blanks before it, and below it a caret under byte `at`, which may be the one
   behind the last, and waves as far as the field of `width` bytes goes.  Of a long line a piece around the place is shown, so
   that nothing is wider than 80 columns. */
void show_place(FILE *to, const uint8_t *line, size_t len, size_t at,
                size_t width);

#endif
