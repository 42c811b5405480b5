#define _POSIX_C_SOURCE 200809L /* for stat */
#include "arguments.h"

#include <stdio.h>
#include <string.h>
#include <sys/stat.h>

#include <abo.h>
#include <abo_say.h>
#include "../common/sheet_and_day.h"
#include "../common/names.h"
#include "../common/output.h"

/* Options with a value, and the ledger, which has no name. */
enum option {
    SHEET,
    DAY,
    READ,
    PAID,
    ENCODING,
    REGISTER,
    OUT,
    LEDGER,
    OPTIONS
};

static const char *const names[] = {
    [SHEET] = "--sheet", [DAY] = "--day", [READ] = "--read",
    [PAID] = "--paid", [ENCODING] = "--encoding", [REGISTER] = "--register",
    [OUT] = "-o",
};

/* Words as they were given; NULL where none was. */
struct given {
    const char *word[OPTIONS];
};

static bool mistake(const char *word, const char *what, const char *more)
{
    fputs("orderbook: ", stderr);
    put_name(stderr, word);
    fprintf(stderr, " %s%s. `orderbook --help` says how it is used.\n", what,
            more);
    return false;
}

static bool keep(struct given *g, enum option option, const char *name,
                 const char *word)
{
    if (g->word[option] != NULL)
        return option == LEDGER
                   ? mistake(word, "is a second ledger, and one is taken at a "
                                   "time", "")
                   : mistake(name, "is given twice", "");
    g->word[option] = word;
    return true;
}

/* Takes an option's value, which stands behind it or, of a long one, behind
 * `=`, and moves past it. */
static bool take_option(struct given *g, char ***at)
{
    const char *word = **at;
    for (unsigned i = 0; i < LEDGER; i++) {
        size_t len = strlen(names[i]);
        if (strncmp(word, names[i], len) != 0)
            continue;
        if (word[len] == '=' && len > 2)
            return keep(g, i, names[i], word + len + 1);
        if (word[len] != '\0')
            continue;
        const char *value = (*at)[1];
        /* `-o --sheet K` has lost its file */
        if (value == NULL || (value[0] == '-' && value[1] != '\0'))
            return mistake(word, "wants something behind it", "");
        ++*at;
        return keep(g, i, names[i], value);
    }
    return mistake(word, "is no option of this program", "");
}

static bool asks_help(const char *word)
{
    return strcmp(word, "--help") == 0 || strcmp(word, "-h") == 0;
}

/* Behind `--` a ledger's name may begin with a dash. */
static enum wish take_words(struct given *g, char **at)
{
    bool options = true;
    for (; *at != NULL; at++) {
        bool dashed = options && (*at)[0] == '-' && (*at)[1] != '\0';
        if (dashed && strcmp(*at, "--") == 0)
            options = false;
        else if (dashed && asks_help(*at))
            return HELP;
        else if (dashed && strcmp(*at, "--version") == 0)
            return VERSION;
        else if (!(dashed ? take_option(g, &at) : keep(g, LEDGER, NULL, *at)))
            return MISTAKE;
    }
    return g->word[READ] != NULL ? READ_FILE : MAKE_FILE;
}

/* Which options are there, and which go together. */
static bool is_complete(const struct given *g)
{
    bool reads = g->word[READ] != NULL;
    if (reads && g->word[LEDGER] != NULL)
        return mistake(g->word[LEDGER], "does not go with --read, which takes "
                                        "no ledger", "");
    if (!reads && g->word[LEDGER] == NULL)
        return mistake("a ledger", "is wanted, or --read and a file", "");
    if (!reads && g->word[PAID] != NULL)
        return mistake("--paid", "goes with --read, and a file that was "
                                 "handed to the bank", "");
    for (unsigned i = ENCODING; i <= OUT; i++)
        if (reads && g->word[i] != NULL)
            return mistake(names[i], "does not go with --read", "");
    for (unsigned i = SHEET; i <= DAY; i++)
        if (g->word[i] == NULL)
            return mistake(names[i], "is missing", "");
    return true;
}

/* The library alone says which days are real; it does so before it looks at a
 * file. */
static bool is_real(uint64_t sheet, uint64_t day)
{
    return abo_read(NULL, 0, sheet, day, NULL, 0).number != ABO_BAD_TODAY;
}

static bool understand(struct arguments *a, const struct given *g)
{
    const char *encoding = g->word[ENCODING];
    a->from = g->word[g->word[READ] != NULL ? READ : LEDGER];
    a->out = g->word[OUT];
    a->paid = g->word[PAID];
    a->reg = g->word[REGISTER];
    a->sheet = sheet_named(g->word[SHEET]);
    a->day = day_named(g->word[DAY]);
    a->encoding = IN_UTF_8;
    if (a->sheet == 0)
        return mistake(g->word[SHEET], "is no sheet: it is ", sheets_are);
    if (a->day == 0)
        return mistake(g->word[DAY], "is no day: it is spelled as ", days_are);
    if (!is_real(a->sheet, a->day))
        return mistake(g->word[DAY], "is refused: ",
                       abo_say_number(ABO_BAD_TODAY));
    if (encoding != NULL && !encoding_named(encoding, &a->encoding))
        return mistake(encoding, "is no encoding of a ledger: it is utf-8 or "
                                 "cp1250", "");
    if (a->reg != NULL && strcmp(a->reg, "-") == 0)
        return mistake("--register -", "is no register: that is replaced where "
                                       "it stands, and has a name", "");
    return true;
}

/* A device or a terminal may be both; what an ordinary file had would be
 * lost. */
static bool are_one(const char *from, const char *out)
{
    struct stat there;
    return stat(out, &there) == 0 && S_ISREG(there.st_mode) &&
           same_file(from, out);
}

/* By device and inode: a file has many names. */
static bool spares(const struct arguments *a, const char *file,
                   const char *why)
{
    if (a->out != NULL && strcmp(a->out, "-") != 0)
        return !are_one(file, a->out) || mistake(a->out, why, "");
    return !are_one(file, "/dev/stdout") || mistake("Standard output", why, "");
}

static bool spares_inputs(const struct arguments *a)
{
    const char *from = strcmp(a->from, "-") == 0 ? "/dev/stdin" : a->from;
    return spares(a, from, "leads to the file that is read, which would be "
                           "lost") &&
           (a->reg == NULL ||
            spares(a, a->reg, "leads to the register, which would be lost"));
}

bool to_standard(const struct arguments *a)
{
    return a->out == NULL || strcmp(a->out, "-") == 0 ||
           same_file(a->out, "/dev/stdout");
}

enum wish take_arguments(struct arguments *a, char **words)
{
    struct given g = {{NULL}};
    enum wish wish = take_words(&g, words);
    if ((wish == MAKE_FILE || wish == READ_FILE) &&
        !(is_complete(&g) && understand(a, &g) && spares_inputs(a)))
        return MISTAKE;
    return wish;
}
