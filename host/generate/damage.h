/* Damage to a file that knows nothing of its fields. */
#ifndef HOST_DAMAGE_H
#define HOST_DAMAGE_H

#include "dice.h"
#include "text.h"

/* One to three changes of bytes or lines. */
void damage(struct text *file, struct dice *d);

#endif
