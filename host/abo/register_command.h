/* The tool's command `register`: the numbers that a day's files of K have used, kept in a file. */
#ifndef HOST_ABO_REGISTER_COMMAND_H
#define HOST_ABO_REGISTER_COMMAND_H

#include "arguments.h"
#include "rewriting.h"

/* Starts a day, says which number is the lowest free one or how many are free, or takes one back; by the first word behind the command. */
enum status run_register(const struct arguments *a);

#endif
