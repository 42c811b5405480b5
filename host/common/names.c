#include "names.h"

#include <string.h>

#include "letters.h"

/* Control characters of ASCII, those above 127 (U+0080 to U+009F), and what turns the direction of writing. */
static bool commands(uint32_t letter)
{
    return letter < 32 || (letter >= 127 && letter < 160) || letter == '\\' ||
           (letter >= 0x200e && letter <= 0x200f) || (letter >= 0x2028 && letter <= 0x202e) ||
           (letter >= 0x2066 && letter <= 0x2069);
}

static void put_escaped(FILE *to, uint8_t byte)
{
    static const char known[] = "\n\t\r\\", named[] = "ntr\\";
    const char *found = byte != '\0' ? strchr(known, byte) : NULL;
    if (found != NULL)
        fprintf(to, "\\%c", named[found - known]);
    else
        fprintf(to, "\\x%02x", byte);
}

void put_name(FILE *to, const char *name)
{
    const uint8_t *at = (const uint8_t *)name;
    size_t left = strlen(name);
    while (left > 0) {
        uint32_t letter = 0;
        size_t length = take_utf8(at, left, &letter);
        if (length > 0 && !commands(letter))
            fwrite(at, 1, length, to);
        else
            for (size_t i = 0; i < length || i == 0; i++)
                put_escaped(to, at[i]);
        length += length == 0;
        at += length;
        left -= length;
    }
}

void tell_fault(const char *program, const char *name, const char *standard,
                const char *what, const char *why)
{
    fprintf(stderr, "%s: ", program);
    if (name == NULL || strcmp(name, "-") == 0)
        fputs(standard, stderr);
    else
        put_name(stderr, name);
    fprintf(stderr, " %s: %s.\n", what, why);
}
