/* The options and the files of a command. */
#include "arguments.h"

#include <stdio.h>
#include <string.h>

#include "../common/sheet_and_day.h"
#include "../common/names.h"
#include "language.h"

bool misused(const char *before, const char *word, const char *behind)
{
    fprintf(stderr, "abo: %s", before);
    put_name(stderr, word);
    fprintf(stderr, "%s `abo help` says how it is used.\n", behind);
    return false;
}

/* An option: a flag, or one that has a value. */
struct option {
    const char *name;
    bool *flag;
    const char **value;
};

/* A flag or a value is set once. */
static bool set(const struct option *o, const char *value)
{
    if (o->flag != NULL ? *o->flag : *o->value != NULL)
        return misused("The option ", o->name, " was given twice.");
    if (o->flag != NULL)
        *o->flag = true;
    else
        *o->value = value;
    return true;
}

/* Takes the option at *at, whose value stands behind it or, with a long one, behind `=`.  Moves past what it took. */
static bool take_option(struct arguments *a, char ***at)
{
    const struct option options[] = {
        {"--sheet", NULL, &a->sheet_word},
        {"--day", NULL, &a->day_word},
        {"--date", NULL, &a->date_word},
        {"--register", NULL, &a->register_name},
        {"--lang", NULL, &a->lang_word},
        {"-o", NULL, &a->out},
        {"--strict", &a->strict, NULL},
        {"--accept-warnings", &a->accept_warnings, NULL},
        {"--check", &a->check, NULL},
        {"--csv", &a->csv, NULL},
        {"--all-sheets", &a->all_sheets, NULL},
        {"--json", &a->json, NULL},
        {"--again", &a->again, NULL},
    };
    const char *word = **at;
    for (size_t i = 0; i < sizeof options / sizeof *options; i++) {
        const struct option *o = &options[i];
        size_t len = strlen(o->name);
        if (strncmp(word, o->name, len) != 0)
            continue;
        if (word[len] == '=' && len > 2 && o->value != NULL)
            return set(o, word + len + 1);
        if (word[len] != '\0')
            continue;
        if (o->flag != NULL)
            return set(o, NULL);
        if ((*at)[1] == NULL)
            return misused("The option ", word, " lacks its value.");
        ++*at;
        return set(o, **at);
    }
    return misused("The option ", word, " is not known.");
}

/* Whether a day is real is for the library to say. */
static bool take_day(uint64_t *day, const char *word)
{
    char behind[160];
    *day = word != NULL ? day_named(word) : 0;
    if (word == NULL || *day != 0)
        return true;
    snprintf(behind, sizeof behind, " is not spelled as in %s.", days_are);
    return misused("The day ", word, behind);
}

static bool take_words(struct arguments *a)
{
    char behind[160];
    a->sheet = a->sheet_word != NULL ? sheet_named(a->sheet_word) : 0;
    if (a->lang_word == NULL)
        a->language = language_of_locale();
    else if (!language_named(&a->language, a->lang_word))
        return misused("The language ", a->lang_word, " is none of cs and en.");
    if (a->sheet_word != NULL && a->sheet == 0) {
        snprintf(behind, sizeof behind, " is none of %s.", sheets_are);
        return misused("The sheet ", a->sheet_word, behind);
    }
    return take_day(&a->today, a->day_word) && take_day(&a->date, a->date_word);
}

bool take_arguments(struct arguments *a, char **at)
{
    bool options = true; /* until `--`, behind which a file may begin with a dash */
    a->files = at;
    for (; *at != NULL; at++) {
        bool dashed = options && (*at)[0] == '-' && (*at)[1] != '\0';
        if (dashed && strcmp(*at, "--") == 0)
            options = false;
        else if (dashed && (strcmp(*at, "--help") == 0 || strcmp(*at, "-h") == 0))
            a->help = true;
        else if (dashed && !take_option(a, &at))
            return false;
        else if (!dashed)
            a->files[a->count++] = *at; /* never ahead of what is read */
    }
    return a->help || take_words(a);
}
