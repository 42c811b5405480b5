/*
 * What the tests of the headers share: checks that are counted, and the tables
 * of a page, cell by cell.  C99 and C++11 alike.
 */
#ifndef HOST_API_PAGE_H
#define HOST_API_PAGE_H

#include <stdio.h>
#include <stdlib.h>
#include <string.h>

enum { CELLS = 5 };

#define COUNT_OF(list) (sizeof(list) / sizeof((list)[0]))

static unsigned long passed, failed;

static inline void check(int ok, const char *what, const char *detail)
{
    if (ok) {
        passed++;
        return;
    }
    failed++;
    printf("failed: %s: %s\n", what, detail);
}

/* The last line of a test; its exit status is given back. */
static inline int last_line(void)
{
    printf("%lu passed, %lu failed\n", passed, failed);
    return failed != 0;
}

static inline FILE *page(const char *path)
{
    FILE *f = fopen(path, "r");
    if (f == NULL) {
        perror(path);
        exit(2);
    }
    return f;
}

static inline char *trimmed(char *from, char *end)
{
    while (from < end && *from == ' ')
        from++;
    while (end > from && end[-1] == ' ')
        end--;
    *end = '\0';
    return from;
}

/* Cuts a line into the cells of a table; 0 if it is no line of one. */
static inline int cells_of(char *line, char *cells[CELLS])
{
    int count = 0;
    char *end, *at = line + 1;
    while (*line == '|' && count < CELLS && (end = strchr(at, '|')) != NULL) {
        cells[count++] = trimmed(at, end);
        at = end + 1;
    }
    return count;
}

/* The tables of docs/ROWS.md and docs/NUMBERS.md, known by their first cell. */
enum rows_table {
    NO_TABLE,
    ROWS_TABLE,
    HEADER_TABLE,
    STATEMENT_TABLE,
    HEAD_TABLE,
    MOVEMENT_TABLE,
    FINDING_TABLE,
    REGISTER_TABLE,
    NUMBER_TABLE,
    CAUSE_TABLE,
    FOUND_TABLE
};

/* The table that a line with these cells is in, after a line of `table`. */
static inline enum rows_table table_of(enum rows_table table, char **cells,
                                       int count)
{
    static const char *const names[] = {
        NULL,          "word",            "field",          "statement word",
        "head's byte", "movement's byte", "finding's word", "register's word",
        "no.",         "cause",           "found field"};
    if (count == 0)
        return NO_TABLE;
    for (size_t i = ROWS_TABLE; i < COUNT_OF(names); i++)
        if (strcmp(cells[0], names[i]) == 0)
            return (enum rows_table)i;
    return table;
}

#endif
