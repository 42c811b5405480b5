/* The language that the tool speaks: the one asked for, or the locale's. */
#ifndef HOST_ABO_LANGUAGE_H
#define HOST_ABO_LANGUAGE_H

#include <stdbool.h>
#include <stdint.h>

/* An enum abo_language by its word, `cs` or `en`; false if it is none. */
bool language_named(uint64_t *language, const char *word);

/* Czech if the first of LC_ALL, LC_MESSAGES and LANG that is set and not empty names it (cs, cs_CZ.UTF-8), else English. */
uint64_t language_of_locale(void);

#endif
