/* What the tables share: columns as wide as their widest cell, and a text in quotation marks, so that blanks at its ends show. */
#ifndef HOST_COLUMNS_H
#define HOST_COLUMNS_H

#include <stddef.h>
#include <stdint.h>
#include <stdio.h>
#include <string.h>

#include "../common/letters.h"

/* A column has a cell with these letters, too. */
static inline void widen(int *width, const char *cell)
{
    int len = (int)strlen(cell);
    if (len > *width)
        *width = len;
}

/* A column that has anything is as wide as its title; one that has nothing stays 0 wide, and is left out. */
static inline void widen_by_titles(int width[], const char *const titles[], int columns)
{
    for (int k = 0; k < columns; k++)
        if (width[k] > 0)
            widen(&width[k], titles[k]);
}

static inline void print_quoted(FILE *to, const uint8_t *bytes, size_t len)
{
    fputc('"', to);
    show_1250(to, bytes, len);
    fputc('"', to);
}

#endif
