/*
 * The command-line tool over the library: checks, rewrites, shows and explains ABO (.kpc) payment files, keeps the register of a day's numbers,
 * and shows statements.
 * `abo help` prints how it is used (host/abo/help.c).
 */
#include <inttypes.h>
#include <stdio.h>
#include <stdlib.h>
#include <string.h>

#include <abo.h>
#include "abo/arguments.h"
#include "abo/help.h"
#include "abo/json.h"
#include "abo/register_command.h"
#include "abo/registered.h"
#include "abo/rewriting.h"
#include "abo/sheets_table.h"
#include "abo/statement_command.h"
#include "abo/table.h"
#include "common/input.h"
#include "common/letters.h"
#include "common/names.h"
#include "common/output.h"
#include "common/refusal.h"
#include "common/sums.h"

static enum status trouble(const char *sentence)
{
    end_progress();
    fprintf(stderr, "abo: %s\n", sentence);
    return TROUBLE;
}

static struct abo_answer read_into(const struct job *j, union abo_row *rows, size_t count)
{
    const struct arguments *a = j->ask;
    if (j->reg == NULL)
        return abo_read_rows(j->file.bytes, j->file.len, a->sheet, a->today, rows, count);
    return abo_read_registered(j->file.bytes, j->file.len, a->sheet, a->today, (uint8_t *)rows, count * sizeof *rows,
                               j->reg->lent.bytes, j->reg->lent.len);
}

/* With no room lent, the library says 16 and how many rows a file that it accepts has; nothing is marked by that. */
static bool judge(struct job *j)
{
    say_progress(&j->file, "abo", "judging");
    j->answer = read_into(j, NULL, 0);
    if (j->answer.number == ABO_NO_ROOM) {
        bool fits = j->answer.needed <= SIZE_MAX / sizeof *j->rows;
        size_t count = (size_t)j->answer.needed;
        j->rows = fits ? malloc(count * sizeof *j->rows) : NULL;
        if (j->rows == NULL)
            return trouble("There is not enough memory for the file's rows."), false;
        j->answer = read_into(j, j->rows, count);
    }
    end_progress();
    return true;
}

static bool many(const struct job *j)
{
    return j->ask->count > 1;
}

static const char *name_of(const struct job *j)
{
    return many(j) ? j->name : NULL;
}

static enum status refused(const struct job *j, FILE *to)
{
    const struct input *reg = j->reg != NULL ? &j->reg->lent : NULL;
    print_refusal(to, j->ask->language, name_of(j), &j->file, j->ask->sheet, j->ask->today, &j->answer, reg);
    return REFUSED;
}

/* Where several files are asked about, what is said of one begins with its name. */
static void begin_line(const struct job *j)
{
    if (!many(j))
        return;
    put_name(stdout, j->name);
    fputs(": ", stdout);
}

/* What is accepted may not be good enough. */
static enum status strictly(const struct job *j)
{
    return j->ask->strict && j->answer.warnings > 0 ? REFUSED : ACCEPTED;
}

static enum status print_accepted(const struct job *j)
{
    begin_line(j);
    fputs(j->ask->language == ABO_CZECH ? "přijato, " : "accepted, ", stdout);
    print_payments(stdout, j->ask->language, j->rows, (size_t)j->answer.rows);
    fputs(", ", stdout);
    print_warnings(stdout, j->ask->language, j->answer.warnings);
    fputc('\n', stdout);
    return strictly(j);
}

static bool list_so_many(struct job *j, uint64_t count)
{
    bool fits = count < SIZE_MAX / sizeof *j->findings;
    free(j->findings);
    j->findings = fits ? malloc((size_t)(count + 1) * sizeof *j->findings) : NULL; /* never room of no bytes */
    if (j->findings == NULL)
        return false;
    j->list = abo_findings_of(j->file.bytes, j->file.len, j->ask->sheet, j->ask->today, j->findings, (size_t)count);
    return true;
}

/* Lists what is found: one refusal, or as many warnings as reading counted; or those of a file that the register alone refuses. */
static bool list_findings(struct job *j)
{
    bool listed = list_so_many(j, j->answer.number != ABO_ACCEPTED ? 1 : j->answer.warnings);
    if (listed && j->list.number == ABO_NO_ROOM)
        listed = list_so_many(j, j->list.needed);
    if (!listed || j->list.number != ABO_ACCEPTED)
        return false;
    list_registered(j);
    return true;
}

static enum status no_list(void)
{
    return trouble("There is not enough memory for what is found in the file.");
}

static enum status check_accepted(struct job *j)
{
    uint64_t language = j->ask->language;
    if (j->answer.warnings > 0 && !list_findings(j))
        return no_list();
    enum status status = print_accepted(j);
    for (uint64_t i = 0; i < j->list.count; i++)
        print_warning(stdout, language, name_of(j), &j->file, j->ask->sheet, j->ask->today, &j->findings[i]);
    note_utf8(stdout, language, utf8_texts(j->rows, (size_t)j->answer.rows, j->file.bytes) +
                                    looks_like_utf8(j->answer.header.name, ABO_NAME_BYTES));
    return status;
}

static enum status check_for_programs(struct job *j)
{
    if (!list_findings(j))
        return no_list();
    print_json(stdout, j);
    return j->list.refused != 0 ? REFUSED : strictly(j);
}

/* Without a sheet there is the table alone, and no answer of one sheet. */
static enum status check_by_all(const struct job *j)
{
    if (many(j)) {
        put_name(stdout, j->name);
        fputs(":\n", stdout);
    }
    print_sheets_table(stdout, j);
    return by_any_sheet(j);
}

static enum status check(struct job *j)
{
    if (j->ask->json)
        return check_for_programs(j);
    if (j->ask->sheet == 0)
        return check_by_all(j);
    enum status status = j->answer.number == ABO_ACCEPTED ? check_accepted(j) : refused(j, stdout);
    if (status != TROUBLE)
        print_registered(stdout, j);
    if (j->ask->all_sheets && status != TROUBLE)
        print_sheets_table(stdout, j);
    return status;
}

static enum status show(struct job *j)
{
    if (j->answer.number != ABO_ACCEPTED)
        return refused(j, stderr);
    print_batch(stdout, &j->file, &j->answer, j->rows);
    return print_accepted(j);
}

static struct abo_text explain_into(const struct job *j, uint8_t *out, size_t len)
{
    return abo_explain(j->file.bytes, j->file.len, j->ask->sheet, j->ask->today, out, len);
}

/* A text has a sentence for each warning, so its length is asked for. */
static enum status explain(struct job *j)
{
    struct abo_text t = explain_into(j, NULL, 0);
    uint8_t *text = t.bytes <= SIZE_MAX ? malloc((size_t)t.bytes) : NULL;
    if (text == NULL)
        return trouble("There is not enough memory for the explanation.");
    t = explain_into(j, text, (size_t)t.bytes);
    begin_line(j);
    fwrite(text, 1, (size_t)t.bytes, stdout);
    free(text);
    return j->answer.number == ABO_ACCEPTED ? strictly(j) : REFUSED;
}

static enum status rewrite(struct job *j)
{
    return j->answer.number == ABO_ACCEPTED ? rewrite_accepted(j) : refused(j, stderr);
}

/* A statement and a register are judged by no sheet, so these commands have no job. */
static const struct command {
    const char *name;
    enum status (*run)(struct job *);
    enum status (*alone)(const struct arguments *);
} commands[] = {{"check", check, NULL},     {"rewrite", rewrite, NULL},         {"show", show, NULL},
                {"explain", explain, NULL}, {"statement", NULL, run_statement}, {"register", NULL, run_register}};

static bool fits_register(const struct command *c, const struct arguments *a)
{
    if (a->date_word != NULL || a->again)
        return misused("Only register start takes ", a->again ? "--again" : "--date", ".");
    if (a->register_name == NULL)
        return true;
    if (c->run != check)
        return misused("Only check takes ", "--register", ".");
    if (a->all_sheets)
        return misused("A register is looked at by sheet K alone, so --register does not go with ", "--all-sheets", ".");
    if (strcmp(a->register_name, "-") == 0)
        return misused("A register is replaced where it stands, so it cannot be standard input, ", "-", ".");
    return true;
}

/* What only some commands take. */
static bool fits(const struct command *c, const struct arguments *a)
{
    bool rewrites = c->run == rewrite;
    if (c->run != check && (a->all_sheets || a->json))
        return misused("Only check takes ", a->all_sheets ? "--all-sheets" : "--json", ".");
    if (a->all_sheets && a->json)
        return misused("With --json every sheet is told anyway, so it does not go with ", "--all-sheets", ".");
    if (a->check || a->csv)
        return misused("Only statement takes ", a->check ? "--check" : "--csv", ".");
    if (!rewrites && (a->out != NULL || a->accept_warnings))
        return misused(a->out != NULL ? "Only rewrite and statement take " : "Only rewrite takes ",
                       a->out != NULL ? "-o" : "--accept-warnings", ".");
    if (rewrites && a->strict)
        return misused("A file with warnings is not rewritten anyway, so rewrite does not take ", "--strict", ".");
    if (rewrites && a->count > 1)
        return misused("One file is rewritten at a time, and ", a->files[1], " is a second one.");
    return true;
}

/* The library alone says which days are real; it does so before it looks at a file. */
static bool complete(const struct arguments *a)
{
    if (a->count == 0)
        return misused("No file was ", "named", ".");
    bool no_sheet = a->sheet == 0 && !a->all_sheets;
    if (no_sheet || a->today == 0)
        return misused("The option ", no_sheet ? "--sheet" : "--day", " is missing.");
    if (abo_read(NULL, 0, ABO_SHEET_K, a->today, NULL, 0).number == ABO_BAD_TODAY)
        return misused("The day ", a->day_word, " is no real day of 2000 to 2099.");
    return true;
}

static enum status run_on(const struct command *c, const struct arguments *a, const char *name)
{
    struct register_file reg;
    struct job j = {.ask = a, .name = name, .reg = looks_at_register(a) ? &reg : NULL};
    enum status status = TROUBLE;
    if (read_whole(&j.file, "abo", name) && (j.reg != NULL ? judge_against_register(&j, judge) : judge(&j)))
        status = c->run(&j);
    free(j.findings);
    free(j.rows);
    free(j.file.bytes);
    return status;
}

/* Every file is looked at, whatever came before, and the gravest status is the run's. */
static enum status run(const struct command *c, char **arguments)
{
    struct arguments a = {0};
    enum status gravest = ACCEPTED;
    if (!take_arguments(&a, arguments))
        return TROUBLE;
    if (a.help) {
        print_help();
        return ACCEPTED;
    }
    if (c->alone != NULL)
        return c->alone(&a);
    if (!fits(c, &a) || !fits_register(c, &a) || !complete(&a))
        return TROUBLE;
    for (size_t i = 0; i < a.count; i++) {
        enum status status = run_on(c, &a, a.files[i]);
        if (status > gravest)
            gravest = status;
    }
    return gravest;
}

static enum status answer(char **argument)
{
    const char *name = argument[0];
    if (name == NULL)
        return trouble("No command was given. `abo help` says how it is used.");
    for (size_t i = 0; i < sizeof commands / sizeof *commands; i++)
        if (strcmp(name, commands[i].name) == 0)
            return run(&commands[i], argument + 1);
    if (strcmp(name, "help") == 0 || strcmp(name, "--help") == 0 || strcmp(name, "-h") == 0)
        print_help();
    else if (strcmp(name, "--version") == 0)
        puts("abo " ABO_VERSION);
    else
        return misused("", name, " is no command."), TROUBLE;
    return ACCEPTED;
}

int main(int argc, char **argv)
{
    guard_output();
    enum status status = answer(argv + (argc > 0));
    if ((fflush(stdout) != 0 || ferror(stdout)) && status != TROUBLE)
        status = trouble("Standard output could not be written whole.");
    return (int)status;
}
