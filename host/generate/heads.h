/* The first line and the lines at the head of an account file and a group,
   without their ends. */
#ifndef HOST_HEADS_H
#define HOST_HEADS_H

#include "plan.h"

void put_first_line(struct plan *p);

/* The account file's place counts from 0. */
void put_file_line(struct plan *p, unsigned place);

void put_group_line(struct plan *p, bool single, uint64_t sum);

#endif
