/* Which parts of what is generated come out wrong: one in so many, or one that
   is aimed at. */
#ifndef HOST_FAULTS_H
#define HOST_FAULTS_H

#include "dice.h"

enum { NO_PART = 255 };

struct faults {
    unsigned rate; /* one part in so many is wrong; 0: none but the one .. */
    unsigned aim;  /* .. that is aimed at, once; NO_PART: none */
    unsigned skip; /* after so many of its kind */
};

static inline bool falls_on(struct faults *f, struct dice *d, unsigned part)
{
    if (f->rate != 0)
        return one_in(d, f->rate);
    if (f->aim != part)
        return false;
    if (f->skip > 0) {
        f->skip--;
        return false;
    }
    f->aim = NO_PART;
    return true;
}

/* Is this the part that is aimed at, and yet to come? */
static inline bool aims_at(const struct faults *f, unsigned part)
{
    return f->rate == 0 && f->aim == part;
}

#endif
