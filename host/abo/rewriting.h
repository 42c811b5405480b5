/* A file in hand, and its rewriting: never changed in silence. */
#ifndef HOST_ABO_REWRITING_H
#define HOST_ABO_REWRITING_H

#include <abo.h>
#include "../common/input.h"
#include "../common/register_file.h"
#include "arguments.h"

/* The gravest comes last. */
enum status { ACCEPTED = 0, REFUSED = 1, TROUBLE = 2 };

/* What was asked, what was read, and what the library made of it. */
struct job {
    const struct arguments *ask;
    const char *name;
    struct input file;
    struct abo_answer answer;
    union abo_row *rows;
    struct abo_list list;         /* of what was found, where it was asked for */
    struct abo_finding *findings; /* as many as the list counts */
    struct register_file *reg;    /* that it is judged against; NULL if there is none */
    uint64_t marks;               /* numbers that were marked in it for this file */
};

/* Writes the canonical spelling of a file that was accepted, without warnings or with --accept-warnings, and says on standard error
   what of the file it does not keep. */
enum status rewrite_accepted(const struct job *j);

#endif
