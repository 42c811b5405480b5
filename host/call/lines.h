/* The lines of a file, cut by plain C that asks nothing of the library: what
   abo_line is compared with. */
#ifndef HOST_LINES_H
#define HOST_LINES_H

#include <stddef.h>
#include <stdint.h>

#include <abo.h>

/* In their order; the file's end is the last one, without bytes. */
struct lines {
    struct abo_found *list;
    size_t count, room;
};

void split_lines(struct lines *l, const uint8_t *file, size_t len);

/* The line of a number, or zeros. */
struct abo_found line_numbered(const struct lines *l, uint64_t number);

#endif
