/* The tool's command line: what was asked for, or a sentence that says what is wrong with it. */
#ifndef HOST_ABO_ARGUMENTS_H
#define HOST_ABO_ARGUMENTS_H

#include <stdbool.h>
#include <stddef.h>
#include <stdint.h>

struct arguments {
    bool help, strict, accept_warnings, check, csv, all_sheets, json, again;
    char **files; /* `-` is standard input */
    size_t count;
    const char *out;           /* NULL: standard output */
    const char *register_name; /* NULL: none */
    const char *sheet_word, *day_word, *date_word, *lang_word; /* as they were given; NULL: not given */
    uint64_t sheet, today, date;                               /* days as YYYYMMDD, of any digits */
    uint64_t language;                             /* enum abo_language: as given, or by the locale */
};

/* Takes the arguments behind a command, up to the NULL, and keeps the names of files in their place.  Says on standard error what
   it cannot take. */
bool take_arguments(struct arguments *a, char **argument);

/* "abo: BEFORE WORD BEHIND `abo help` says how it is used." on standard error, the word with its control characters escaped;
   false. */
bool misused(const char *before, const char *word, const char *behind);

#endif
