/* What a test says: differences, counts, the last line. */
#ifndef HOST_SHOW_H
#define HOST_SHOW_H

#include <stdbool.h>
#include <stddef.h>
#include <stdint.h>

/* Counts one check.  Gives back whether a failed one is to be shown: only the
   first few are, since one fault may fail thousands. */
bool count_check(bool ok);

/* Counts one check and names it if it failed. */
void check(bool ok, const char *what);

/* Bytes with all that is no plain letter escaped as in C, cut if long. */
void show_bytes(const char *what, const uint8_t *bytes, size_t len);

/* What is in hand, to be shown if the call under test does not come back. */
void in_hand(const char *what, uint64_t seed, const uint8_t *bytes, size_t len);

/* Has a crash shown with what is in hand and counted as a failure. */
void catch_crashes(void);

/* Ends the test, as the machine refuses what it needs: says what, and why. */
void give_up(const char *what);

/* Prints `N passed, M failed` and gives back the exit status. */
int last_line(void);

#endif
