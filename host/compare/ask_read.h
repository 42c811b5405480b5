/* One file read by the library and by the second program, with rooms of every
   kind: the whole answer, the rows' bytes and the bytes around them. */
#ifndef HOST_ASK_READ_H
#define HOST_ASK_READ_H

#include <abo.h>

#include "../generate/generate.h"
#include "../generate/limits.h"

enum { READ_NUMBERS = ABO_NO_ROOM + 1 };

/* How often each number came on each sheet; sheet 0 is no sheet. */
extern unsigned long read_counts[LAST_SHEET + 1][READ_NUMBERS];

/* Of files whose days are judged at each item, how many on each sheet were
   accepted, and how many were refused for a day at a group's first item and at
   a later one. */
enum { EACH_ACCEPTED, EACH_FIRST, EACH_LATER, EACH_ANSWERS };
extern unsigned long each_counts[LAST_SHEET + 1][EACH_ANSWERS];

/* None, then too little, exact and plenty if the file asks for rows, else
   any. */
void compare_file(const char *what, uint64_t seed, const struct made *made);

/* A call with these very pointers, and room for so many bytes; at NULL if there
   is no file.  Gives back the answer. */
struct abo_answer
compare_call(const char *what, const uint8_t *file, size_t len, uint64_t sheet,
             uint64_t today, size_t room);

#endif
