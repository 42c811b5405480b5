#include "register_command.h"

#include <inttypes.h>
#include <stdio.h>
#include <string.h>

#include <abo_say.h>
#include "../common/names.h"
#include "../common/register_file.h"
#include "../common/sheet_and_day.h"

static const char *name_of(const struct arguments *a)
{
    return a->files[1];
}

/* A line of what was done: "started day.reg; 1000 numbers are free on 2026-11-15, the lowest is 000". */
static void begin_line(const struct register_file *r, const char *english, const char *czech)
{
    fputs(r->language == ABO_CZECH ? czech : english, stdout);
    put_name(stdout, r->name);
}

static enum status end_line(const struct register_file *r)
{
    fputs("; ", stdout);
    print_free(stdout, r);
    fputc('\n', stdout);
    return ACCEPTED;
}

/* ---- a day that is started ---- */

/* "abo: day.reg", and what the sentence goes on with. */
static void begin_sentence(const struct register_file *r, const char *english, const char *czech)
{
    fputs("abo: ", stderr);
    put_name(stderr, r->name);
    fputs(r->language == ABO_CZECH ? czech : english, stderr);
}

/* What is no register may be anything, a payment file too. */
static enum status spare_other(const struct register_file *r)
{
    begin_sentence(r, " is there already and is no register, so it is not replaced: ", " už existuje a není to registr, takže se nenahradí: ");
    print_malformed(stderr, r);
    fputs(".\n", stderr);
    return REFUSED;
}

/* Of a day that is not over, the marks are still wanted. */
static enum status spare_marks(const struct register_file *r)
{
    uint64_t marks = register_marks(r);
    begin_sentence(r, " is the register of ", " je registr na den ");
    put_day_in(stderr, r->language, register_date(r));
    if (r->language == ABO_CZECH)
        fprintf(stderr,
                " a označených čísel je v něm %" PRIu64
                ": založením by se tyto značky ztratily. Nic nebylo změněno. S --again se založí i tak.\n",
                marks);
    else
        fprintf(stderr,
                " with %" PRIu64
                " number%s marked, and starting it would lose the marks. Nothing was changed. --again starts it all the same.\n",
                marks, marks == 1 ? "" : "s");
    return REFUSED;
}

/* A register without marks, or of a day before the one that is started, is done with. */
static bool is_over(const struct register_file *r, uint64_t date)
{
    return register_marks(r) == 0 || register_date(r) < date;
}

static enum status start_in(struct register_file *r, const struct arguments *a)
{
    if (r->there && !is_register(r))
        return spare_other(r);
    if (r->there && !a->again && !is_over(r, a->date))
        return spare_marks(r);
    r->lent.len = sizeof r->bytes;
    if (abo_register_start(a->date, r->bytes, sizeof r->bytes).number != ABO_ACCEPTED || !keep_register(r))
        return TROUBLE;
    begin_line(r, "started ", "založen ");
    return end_line(r);
}

static enum status start(const struct arguments *a)
{
    struct register_file r;
    if (!hold_new_register(&r, "abo", a->language, name_of(a)))
        return TROUBLE;
    enum status status = start_in(&r, a);
    let_go_register(&r);
    return status;
}

/* ---- the questions, which hold no lock ---- */

static enum status none_free(const struct register_file *r)
{
    begin_sentence(r, " has no free number: ", " nemá volné číslo: ");
    print_free(stderr, r);
    fputs(".\n", stderr);
    return REFUSED;
}

static enum status print_lowest(const struct register_file *r, uint64_t value)
{
    if (value == ABO_REGISTER_NUMBERS)
        return none_free(r);
    printf("%03" PRIu64 "\n", value);
    return ACCEPTED;
}

static enum status print_count_free(const struct register_file *r, uint64_t value)
{
    (void)r;
    printf("%" PRIu64 "\n", value);
    return ACCEPTED;
}

static enum status ask(const struct arguments *a, struct abo_register_answer (*question)(const uint8_t *, size_t),
                       enum status (*print)(const struct register_file *, uint64_t))
{
    struct register_file r;
    if (!look_at_register(&r, "abo", a->language, name_of(a)))
        return TROUBLE;
    struct abo_register_answer answer = question(r.lent.bytes, r.lent.len);
    if (answer.number == ABO_ACCEPTED)
        return print(&r, answer.value);
    tell_malformed(&r);
    return REFUSED;
}

static enum status lowest(const struct arguments *a)
{
    return ask(a, abo_register_lowest, print_lowest);
}

static enum status count_free(const struct arguments *a)
{
    return ask(a, abo_register_free, print_count_free);
}

/* ---- a number that the bank gave back ---- */

/* Digits alone.  A number that 64 bits do not hold is the largest that they do, which is no number of a register. */
static bool number_named(const char *word, uint64_t *number)
{
    *number = 0;
    for (const char *at = word; *at != '\0'; at++) {
        uint64_t digit = (uint64_t)(*at - '0');
        if (*at < '0' || *at > '9')
            return false;
        *number = *number > (UINT64_MAX - digit) / 10 ? UINT64_MAX : 10 * *number + digit;
    }
    return *word != '\0';
}

static enum status not_taken(const struct register_file *r, const char *word, uint64_t number)
{
    bool czech = r->language == ABO_CZECH;
    if (number >= ABO_REGISTER_NUMBERS) {
        fprintf(stderr, czech ? "abo: %s je větší než %d" : "abo: %s is above %d", word, ABO_REGISTER_NUMBERS - 1);
    } else {
        fprintf(stderr, czech ? "abo: %03" PRIu64 " není označeno v " : "abo: %03" PRIu64 " is not marked in ", number);
        put_name(stderr, r->name);
    }
    fprintf(stderr, czech ? ", takže je nelze vrátit (%d).\n" : ", so it cannot be given back (%d).\n", ABO_NOT_TAKEN);
    return REFUSED;
}

static enum status give_back_in(struct register_file *r, const char *word, uint64_t number)
{
    uint64_t answer = abo_register_give_back(r->lent.bytes, r->lent.len, number).number;
    if (answer == ABO_BAD_REGISTER) {
        tell_malformed(r);
        return REFUSED;
    }
    if (answer != ABO_ACCEPTED)
        return not_taken(r, word, number);
    if (!keep_register(r))
        return TROUBLE;
    begin_line(r, "given back in ", "vráceno v ");
    printf(": %03" PRIu64, number);
    return end_line(r);
}

static enum status give_back(const struct arguments *a)
{
    struct register_file r;
    uint64_t number;
    if (!number_named(a->files[2], &number))
        return misused("The number ", a->files[2], " is not spelled in digits."), TROUBLE;
    if (!hold_register(&r, "abo", a->language, name_of(a)))
        return TROUBLE;
    enum status status = give_back_in(&r, a->files[2], number);
    let_go_register(&r);
    return status;
}

/* ---- the command line ---- */

static const struct verb {
    const char *name;
    enum status (*run)(const struct arguments *);
    size_t words; /* this one, the register's name, and a number */
} verbs[] = {{"start", start, 2}, {"free", count_free, 2}, {"lowest", lowest, 2}, {"give-back", give_back, 3}};

static const struct verb *verb_named(const struct arguments *a)
{
    for (size_t i = 0; a->count > 0 && i < sizeof verbs / sizeof *verbs; i++)
        if (strcmp(a->files[0], verbs[i].name) == 0)
            return &verbs[i];
    return NULL;
}

static const char *other_option(const struct arguments *a)
{
    const char *valued = a->sheet_word != NULL ? "--sheet" : a->day_word != NULL ? "--day" : a->out != NULL ? "-o"
                         : a->register_name != NULL ? "--register" : NULL;
    const char *flag = a->strict ? "--strict" : a->accept_warnings ? "--accept-warnings" : a->check ? "--check" : a->csv ? "--csv"
                       : a->all_sheets ? "--all-sheets" : a->json ? "--json" : NULL;
    return valued != NULL ? valued : flag;
}

/* With no room the library looks at the date alone. */
static bool fits_start(const struct arguments *a)
{
    if (a->date_word == NULL)
        return misused("The option ", "--date", " is missing.");
    if (abo_register_start(a->date, NULL, 0).number == ABO_BAD_TODAY)
        return misused("The day ", a->date_word, " is no real day of 2000 to 2099.");
    return true;
}

static bool fits(const struct arguments *a, const struct verb *v)
{
    if (a->count == 0)
        return misused("The command register wants ", "start, free, lowest or give-back", " behind it.");
    if (v == NULL)
        return misused("", a->files[0], " is nothing that register does: it does start, free, lowest and give-back.");
    if (other_option(a) != NULL)
        return misused("The command register does not take ", other_option(a), ".");
    if (a->count == 1)
        return misused("No register was ", "named", ".");
    if (a->count < v->words)
        return misused("The number that is given ", "back", " is missing.");
    if (a->count > v->words)
        return misused("", a->files[v->words], " is one word too many.");
    if (strcmp(name_of(a), "-") == 0)
        return misused("A register is replaced where it stands, so it cannot be standard input, ", "-", ".");
    if (v->run == start)
        return fits_start(a);
    if (a->date_word != NULL || a->again)
        return misused("Only register start takes ", a->again ? "--again" : "--date", ".");
    return true;
}

enum status run_register(const struct arguments *a)
{
    const struct verb *v = verb_named(a);
    return fits(a, v) ? v->run(a) : TROUBLE;
}
