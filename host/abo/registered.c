#include "registered.h"

#include <inttypes.h>
#include <string.h>

#include <abo_tell.h>
#include "../common/names.h"

static bool in_czech(const struct job *j)
{
    return j->ask->language == ABO_CZECH;
}

bool looks_at_register(const struct arguments *a)
{
    return a->register_name != NULL && a->sheet == ABO_SHEET_K;
}

/* The file was judged, but what became of its numbers is not on the disk. */
static bool not_marked(const struct job *j)
{
    fputs("abo: ", stderr);
    if (strcmp(j->name, "-") == 0)
        fputs(in_czech(j) ? "standardní vstup" : "standard input", stderr);
    else
        put_name(stderr, j->name);
    fputs(in_czech(j) ? " je přijat, ale jeho čísla nejsou označena: registr je, jaký byl.\n"
                      : " is accepted, but its numbers are not marked: the register is as it was.\n",
          stderr);
    return false;
}

/* Every mark of an accepted file is new, and a refused one has none. */
static bool mark(struct job *j, uint64_t before)
{
    uint64_t marks = register_marks(j->reg) - before;
    if (marks == 0 || (j->ask->strict && j->answer.warnings > 0))
        return true;
    if (!keep_register(j->reg))
        return not_marked(j);
    j->marks = marks;
    return true;
}

bool judge_against_register(struct job *j, bool (*judge)(struct job *))
{
    if (!hold_register(j->reg, "abo", j->ask->language, j->ask->register_name))
        return false;
    uint64_t before = register_marks(j->reg);
    bool told = judge(j) && mark(j, before);
    let_go_register(j->reg);
    return told;
}

void list_registered(struct job *j)
{
    const uint64_t bit = UINT64_C(1) << (ABO_SHEET_K - 1);
    if (j->reg == NULL ||
        !abo_tell_registered(&j->answer, j->file.bytes, j->file.len, j->reg->lent.bytes, j->reg->lent.len, &j->findings[0]))
        return;
    j->list.refused = j->list.count = 1;
    j->list.sheets &= ~bit;
}

static void note_strict(FILE *to, const struct job *j)
{
    fputs(in_czech(j) ? "poznámka: čísla nejsou označena v " : "note: its numbers are not marked in ", to);
    put_name(to, j->reg->name);
    fputs(in_czech(j) ? ", protože soubor má varování a bylo zadáno --strict.\n"
                      : ", because it has warnings and --strict was given.\n",
          to);
}

static void note_malformed(FILE *to, const struct job *j)
{
    fputs(in_czech(j) ? "poznámka: " : "note: ", to);
    put_name(to, j->reg->name);
    fputs(in_czech(j) ? " není registr: " : " is no register: ", to);
    print_malformed(to, j->reg);
    fputs(".\n", to);
}

/* "marked in day.reg: 2; 998 numbers are free on 2026-11-15, the lowest is 000". */
static void print_marked(FILE *to, const struct job *j)
{
    fputs(in_czech(j) ? "označeno v " : "marked in ", to);
    put_name(to, j->reg->name);
    fprintf(to, ": %" PRIu64 "; ", j->marks);
    print_free(to, j->reg);
    fputc('\n', to);
}

void print_registered(FILE *to, const struct job *j)
{
    if (j->reg == NULL) {
        if (j->ask->register_name != NULL)
            note_no_register(to, j->ask->language, j->ask->sheet, j->ask->register_name);
    } else if (j->marks > 0) {
        print_marked(to, j);
    } else if (j->answer.number == ABO_ACCEPTED) {
        note_strict(to, j);
    } else if (j->answer.number == ABO_BAD_REGISTER && !is_register(j->reg)) {
        note_malformed(to, j);
    }
}
