/* The sums of statements that pass 2^64, and that come back from there. */
#ifndef HOST_ENDLESS_SUMS_H
#define HOST_ENDLESS_SUMS_H

/* Reads and writes such statements; the library's answers are the second
   program's, and those that they were made for. */
void compare_endless(void);

#endif
