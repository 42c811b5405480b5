/* Memory, without which no test goes on. */
#ifndef HOST_MEMORY_H
#define HOST_MEMORY_H

#include <stdio.h>
#include <stdlib.h>

/* As realloc, but it comes back with memory only, also of no bytes. */
static inline void *resized(void *bytes, size_t len)
{
    void *room = realloc(bytes, len > 0 ? len : 1);
    if (room == NULL) {
        fputs("no memory\n", stderr);
        exit(2);
    }
    return room;
}

#endif
