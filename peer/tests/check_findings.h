/* Shared by the tests of findings: the two calls with guards around every lent
   byte, held against reading and against each other. */
#ifndef CHECK_FINDINGS_H
#define CHECK_FINDINGS_H

#include "check.h"

enum { FINDING = 64 };

struct found {
    uint64_t number, cause, line, byte, length, field, least, most;
};

/* What both calls gave last; they stay until the next call. */
extern struct peer_list test_list;
extern struct found *test_found;
extern char *test_text;

/* Makes both calls and wants of them what holds of every file: guards, 16 with
   too little room, places and counts as reading gives them, the sheets as five
   readings give them, and a text of the right lines.  Gives back how many
   findings there are. */
size_t find_all(const char *what, unsigned sheet, uint64_t today,
                const void *file, size_t len);

/* Wants exactly this finding in a refused file. */
void finds_bytes(const char *what, unsigned sheet, uint64_t today,
                 const void *file, size_t len, struct found want);
/* The same with the place given inside the line. */
void finds_on(const char *what, unsigned sheet, uint64_t today,
              const char *file, uint64_t number, uint64_t cause, uint64_t line,
              size_t plus, uint64_t length, uint64_t field, uint64_t least,
              uint64_t most);
void finds(const char *what, unsigned sheet, const char *file, uint64_t number,
           uint64_t cause, uint64_t line, size_t plus, uint64_t length,
           uint64_t field, uint64_t least, uint64_t most);

/* Wants exactly these warnings in an accepted file; in want, byte is the place
   inside the line and number is not looked at. */
void warns_on(const char *what, unsigned sheet, uint64_t today,
              const char *file, size_t count, const struct found *want);
void warns(const char *what, unsigned sheet, const char *file, size_t count,
           const struct found *want);

/* Wants the text to have these lines behind the first and before those of the
   sheets, each ended by LF. */
void words_on(const char *what, unsigned sheet, uint64_t today,
              const char *file, const char *lines);
void words(const char *what, unsigned sheet, const char *file,
           const char *lines);

#endif
