#define _POSIX_C_SOURCE 200809L /* for open_memstream */
#include "statement_command.h"

#include <stdio.h>
#include <stdlib.h>
#include <string.h>

#include "../common/names.h"
#include "../common/output.h"
#include "statement_table.h"

static bool fits(const struct arguments *a)
{
    const char *no_sheet = a->sheet_word != NULL ? "--sheet" : a->day_word != NULL ? "--day" : NULL;
    const char *no_warning = a->strict ? "--strict" : a->accept_warnings ? "--accept-warnings" : NULL;
    if (a->count == 0)
        return misused("No file was ", "named", ".");
    if (no_sheet != NULL)
        return misused("A statement is the same for every bank and day, so statement does not take ", no_sheet, ".");
    if (a->all_sheets || a->json)
        return misused("Only check takes ", a->all_sheets ? "--all-sheets" : "--json", ".");
    if (a->register_name != NULL)
        return misused("Only check takes ", "--register", ".");
    if (a->date_word != NULL || a->again)
        return misused("Only register start takes ", a->again ? "--again" : "--date", ".");
    if (a->lang_word != NULL)
        return misused("Statements are told in English alone, so statement does not take ", "--lang", ".");
    if (no_warning != NULL)
        return misused("A statement has no warnings, so statement does not take ", no_warning, ".");
    if (a->check && (a->csv || a->out != NULL))
        return misused("With --check nothing else is made, so it does not go with ", a->csv ? "--csv" : "-o", ".");
    if (a->count > 1 && (a->csv || a->out != NULL))
        return misused("With --csv or -o one file is taken at a time, and ", a->files[1], " is a second one.");
    if (a->out != NULL && same_file(a->files[0], a->out))
        return misused("What is made of ", a->files[0], " must not take its place.");
    return true;
}

static void print_accepted(FILE *to, const struct arguments *a, const char *name, const struct statement *s)
{
    if (a->count > 1) {
        put_name(to, name);
        fputs(": ", to);
    }
    fputs("accepted, ", to);
    print_statement_count(to, s);
    fputc('\n', to);
}

static void compose(FILE *to, const struct arguments *a, const char *name, const struct statement *s)
{
    if (a->csv) {
        print_statement_csv(to, s);
        return;
    }
    if (!a->check)
        print_statement(to, s);
    print_accepted(to, a, name, s);
}

/* Composed in memory first, so that output is whole or not there. */
static enum status hand_over(const struct arguments *a, const char *name, const struct statement *s)
{
    char *bytes = NULL;
    size_t len = 0;
    FILE *memory = open_memstream(&bytes, &len);
    bool whole = memory != NULL;
    if (whole) {
        compose(memory, a, name, s);
        whole = !ferror(memory);
        whole = fclose(memory) == 0 && whole;
    }
    enum status status = TROUBLE;
    if (!whole)
        fputs("abo: There is not enough memory for the table.\n", stderr);
    else if (write_whole("abo", a->out, (const uint8_t *)bytes, len))
        status = ACCEPTED;
    free(bytes);
    return status;
}

static enum status run_on(const struct arguments *a, const char *name)
{
    struct statement s;
    enum status status = TROUBLE;
    if (take_statement(&s, "abo", name)) {
        status = REFUSED;
        if (s.answer.number == ABO_ACCEPTED)
            status = hand_over(a, name, &s);
        else
            print_statement_refusal(a->check ? stdout : stderr, a->count > 1 ? name : NULL, &s);
    }
    free_statement(&s);
    return status;
}

enum status run_statement(const struct arguments *a)
{
    enum status gravest = ACCEPTED;
    if (!fits(a))
        return TROUBLE;
    for (size_t i = 0; i < a->count; i++) {
        enum status status = run_on(a, a->files[i]);
        if (status > gravest)
            gravest = status;
    }
    return gravest;
}
