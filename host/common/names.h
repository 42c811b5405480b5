/* Names of files in sentences: what a terminal would take for a command is escaped. */
#ifndef HOST_COMMON_NAMES_H
#define HOST_COMMON_NAMES_H

#include <stdio.h>

/* Writes a name with its control characters, backslashes and bytes that are no UTF-8 as \n, \t, \\ or \x1b. */
void put_name(FILE *to, const char *name);

/* "PROGRAM: NAME WHAT: WHY." on standard error, as in "abo: pond.kpc cannot be read: No such file or directory."  The name `-` or
   NULL is told as `standard`. */
void tell_fault(const char *program, const char *name, const char *standard,
                const char *what, const char *why);

#endif
