/* Lines of a file in a plain spelling that the sheet takes, without their ends:
   what files of a wanted size are put together from. */
#ifndef HOST_PLAIN_H
#define HOST_PLAIN_H

#include "text.h"

/* The day on which they are to be read. */
enum { PLAIN_TODAY = 20180101 };

void put_plain_first(struct text *t, unsigned sheet);

/* An account file's line of this kind, with this number of six digits. */
void put_plain_file(struct text *t, unsigned sheet, unsigned kind,
                    uint64_t number);

/* The shortest item of this amount. */
void put_plain_item(struct text *t, unsigned sheet, uint64_t amount);

#endif
