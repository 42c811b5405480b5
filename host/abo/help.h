/* What `abo help` prints. */
#ifndef HOST_ABO_HELP_H
#define HOST_ABO_HELP_H

void print_help(void);

#endif
