#include "language.h"

#include <stdlib.h>
#include <string.h>

#include <abo_say.h>

bool language_named(uint64_t *language, const char *word)
{
    *language = strcmp(word, "cs") == 0 ? ABO_CZECH : ABO_ENGLISH;
    return *language == ABO_CZECH || strcmp(word, "en") == 0;
}

/* Kashubian, csb, is no Czech. */
static bool is_czech(const char *locale)
{
    return strncmp(locale, "cs", 2) == 0 && (locale[2] == '\0' || strchr("_.@", locale[2]) != NULL);
}

uint64_t language_of_locale(void)
{
    static const char *const names[] = {"LC_ALL", "LC_MESSAGES", "LANG"};
    for (size_t i = 0; i < sizeof names / sizeof *names; i++) {
        const char *locale = getenv(names[i]);
        if (locale != NULL && locale[0] != '\0')
            return is_czech(locale) ? ABO_CZECH : ABO_ENGLISH;
    }
    return ABO_ENGLISH;
}
