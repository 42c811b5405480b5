#define _POSIX_C_SOURCE 200809L /* for localtime_r and strcasecmp */
#include "sheet_and_day.h"

#include <inttypes.h>
#include <stdbool.h>
#include <string.h>
#include <strings.h>
#include <time.h>

#include <abo_say.h>

const char sheets_are[] = "K, S, C, E or P, its number 1 to 5, or its bank's code 8100, 0800, 0300 (for C) or 6100";
const char days_are[] = "2026-11-15, 15.11.2026, 20261115 or today";

/* Does the word name this sheet, by letter, number or code? */
static bool names_sheet(const char *word, uint64_t sheet, const struct abo_sheet_words *words)
{
    char letter[] = {words->letter, '\0'}, number[] = {(char)('0' + sheet), '\0'};
    return strcasecmp(word, letter) == 0 || strcmp(word, number) == 0 || strcmp(word, words->code) == 0;
}

/* The first sheet of a code: 0300 names C, as it did before P, an older edition, was known. */
uint64_t sheet_named(const char *word)
{
    for (uint64_t sheet = 1; abo_say_sheet(sheet) != NULL; sheet++)
        if (names_sheet(word, sheet, abo_say_sheet(sheet)))
            return sheet;
    return 0;
}

void print_sheets(FILE *to, const char *before)
{
    const struct abo_sheet_words *words;
    for (uint64_t sheet = 1; (words = abo_say_sheet(sheet)) != NULL; sheet++)
        fprintf(to, "%s%c  %s  %s\n", before, words->letter, words->code, words->bank);
}

/* Takes from `least` to `most` digits, and moves past them. */
static bool take_digits(const char **at, int least, int most, uint64_t *number)
{
    int count = 0;
    *number = 0;
    for (; count < most && **at >= '0' && **at <= '9'; count++)
        *number = 10 * *number + (uint64_t)(*(*at)++ - '0');
    return count >= least;
}

static bool take_mark(const char **at, char mark)
{
    return *(*at)++ == mark;
}

static bool year_first(const char *at, uint64_t *year, uint64_t *month, uint64_t *day)
{
    return take_digits(&at, 4, 4, year) && take_mark(&at, '-') && take_digits(&at, 2, 2, month) && take_mark(&at, '-') &&
           take_digits(&at, 2, 2, day) && *at == '\0';
}

static bool day_first(const char *at, uint64_t *year, uint64_t *month, uint64_t *day)
{
    return take_digits(&at, 1, 2, day) && take_mark(&at, '.') && take_digits(&at, 1, 2, month) && take_mark(&at, '.') &&
           take_digits(&at, 4, 4, year) && *at == '\0';
}

static bool digits_alone(const char *at, uint64_t *year, uint64_t *month, uint64_t *day)
{
    return take_digits(&at, 4, 4, year) && take_digits(&at, 2, 2, month) && take_digits(&at, 2, 2, day) && *at == '\0';
}

/* The day where this machine stands: the bank's, and not that of UTC. */
static uint64_t clock_day(void)
{
    time_t now = time(NULL);
    struct tm day;
    if (now == (time_t)-1 || localtime_r(&now, &day) == NULL)
        return 0;
    return (uint64_t)(day.tm_year + 1900) * 10000 + (uint64_t)(day.tm_mon + 1) * 100 + (uint64_t)day.tm_mday;
}

uint64_t day_named(const char *word)
{
    uint64_t year, month, day;
    if (strcasecmp(word, "today") == 0)
        return clock_day();
    if (year_first(word, &year, &month, &day) || day_first(word, &year, &month, &day) || digits_alone(word, &year, &month, &day))
        return year * 10000 + month * 100 + day;
    return 0;
}

void put_day(FILE *to, uint64_t day)
{
    fprintf(to, "%04" PRIu64 "-%02" PRIu64 "-%02" PRIu64, day / 10000, day / 100 % 100, day % 100);
}

void put_day_in(FILE *to, uint64_t language, uint64_t day)
{
    if (language == ABO_CZECH)
        fprintf(to, "%" PRIu64 ". %" PRIu64 ". %" PRIu64, day % 100, day / 100 % 100, day / 10000);
    else
        put_day(to, day);
}
