/* What every sheet makes of a file, as a small table. */
#ifndef HOST_ABO_SHEETS_TABLE_H
#define HOST_ABO_SHEETS_TABLE_H

#include <stdio.h>

#include "rewriting.h"

/* A line for each sheet: its letter, its bank, and whether it accepts the file that day, or where it refuses it and why. */
void print_sheets_table(FILE *to, const struct job *j);

/* Is there a sheet that accepts the file, with --strict without warnings? */
enum status by_any_sheet(const struct job *j);

#endif
