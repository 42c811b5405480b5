/* A batch told to a person: a table of its account files, groups and items. */
#ifndef HOST_ABO_TABLE_H
#define HOST_ABO_TABLE_H

#include <stdio.h>

#include <abo.h>
#include "../common/input.h"

/* Prints what abo_read accepted: its answer, the rows it filled and the file that the texts lie in. */
void print_batch(FILE *to, const struct input *file,
                 const struct abo_answer *answer, const union abo_row *rows);

#endif
