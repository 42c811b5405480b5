/* A file of K checked against the register of its day: judged, its numbers marked, and both told. */
#ifndef HOST_ABO_REGISTERED_H
#define HOST_ABO_REGISTERED_H

#include <stdbool.h>
#include <stdio.h>

#include "rewriting.h"

/* Is the job to be judged against a register?  Only K has one; what is named with another sheet is not opened. */
bool looks_at_register(const struct arguments *a);

/* Holds the register while `judge` judges the job against it.  The numbers of a file whose status will be 0, which is accepted and with --strict
   has no warnings, are then marked and the register is replaced, before anything is said of the file.  False if something went wrong, which has
   been told; then the register is as it was. */
bool judge_against_register(struct job *j, bool (*judge)(struct job *));

/* What is found where the register refuses the job's file takes the place of what is listed, and K is none of the sheets that accept it. */
void list_registered(struct job *j);

/* Behind what is said of a file: how many numbers were marked, why none were, or why the register is none. */
void print_registered(FILE *to, const struct job *j);

#endif
