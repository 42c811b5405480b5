/*
 * What the tests of abo_say.c's words share: what a clause is, and the words for
 * a field of a row.  C99 and C++11 alike.
 */
#ifndef HOST_API_WORDS_H
#define HOST_API_WORDS_H

#include <abo_say.h>
#include "page.h"

#include <ctype.h>

/* Text that goes into a sentence. */
static inline int is_clause(const char *text)
{
    size_t len = text == NULL ? 0 : strlen(text);
    return len > 0 && (islower((unsigned char)text[0]) ||
                       isdigit((unsigned char)text[0])) &&
           text[len - 1] != '.' && text[len - 1] != ' ' &&
           strchr(text, '\n') == NULL;
}

static inline void check_field(uint64_t row, uint64_t field, int is_one)
{
    char what[64];
    snprintf(what, sizeof what, "row %llu, field %llu",
             (unsigned long long)row, (unsigned long long)field);
    const char *noun = abo_say_field(row, field);
    const char *allowed = abo_say_allowed(row, field);
    check(is_one ? is_clause(noun) : noun == NULL, what,
          "has a noun exactly if it is a field");
    check(is_one ? is_clause(allowed) : allowed == NULL, what,
          "says what is allowed exactly if it is a field");
}

#endif
