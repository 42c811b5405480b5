/* What check says of a file, for programs: an object of JSON in one line of ASCII. */
#ifndef HOST_ABO_JSON_H
#define HOST_ABO_JSON_H

#include <stdio.h>

#include "rewriting.h"

/* The file's name, sheet, day and number, with --register how many of its numbers were marked there, its findings as numbers and as a
   sentence, and for each sheet whether it accepts it.  The findings must have been listed. */
void print_json(FILE *to, const struct job *j);

#endif
