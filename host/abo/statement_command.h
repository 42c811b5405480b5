/* The tool's command `statement`, which takes no sheet and no day. */
#ifndef HOST_ABO_STATEMENT_COMMAND_H
#define HOST_ABO_STATEMENT_COMMAND_H

#include "arguments.h"
#include "rewriting.h"

/* Shows each file as a table, or with --check says whether it is accepted, or with --csv gives its movements; all of a file's output,
   or none of it.  Gives back the gravest status. */
enum status run_statement(const struct arguments *a);

#endif
