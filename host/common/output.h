/*
 * Output that is whole or not there.  A file is made beside its target under no name (or, where the file system cannot do that,
 * a name of its own), filled, flushed to the disk and only then put in the target's place.  Until then the old file stands; after
 * any fault, a signal that ends the program too, it still stands and nothing is left beside it.
 */
#ifndef HOST_COMMON_OUTPUT_H
#define HOST_COMMON_OUTPUT_H

#include <stdbool.h>
#include <stddef.h>
#include <stdint.h>

/* Has the program live on to say so where a pipe is closed or a file grows too large, and clean up where it is ended by a signal.
   Called once, before any output. */
void guard_output(void);

/* Writes bytes to the file of this name, or to standard output if the name is NULL or `-`.  A link is followed, and what it leads
   to is replaced; what is no ordinary file (a device, a pipe, /dev/stdout) is written to as it is; a file that may not be written
   to, or is a directory, is refused.  Where the output is not whole, says why on standard error in the program's name, and gives
   back false. */
bool write_whole(const char *program, const char *name, const uint8_t *bytes,
                 size_t len);

/* Where a file of this name is written: the name that its links lead to, which need not be there yet.  False with errno where there are too many
   links, or the name has no room with its zero byte. */
bool follow_links(const char *name, char *target, size_t room);

/* Do both names lead to one file, by whatever way? */
bool same_file(const char *one, const char *other);

#endif
