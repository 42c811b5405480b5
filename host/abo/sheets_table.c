#include "sheets_table.h"

#include <string.h>

#include <abo_tell.h>

/* With room for one finding a refused file has its own, and of an accepted one the answer counts the warnings. */
static struct abo_list ask(const struct job *j, uint64_t sheet, struct abo_finding *first)
{
    return abo_findings_of(j->file.bytes, j->file.len, sheet, j->ask->today, first, 1);
}

/* How many columns a text of UTF-8 takes. */
static int columns_of(const char *text)
{
    int columns = 0;
    for (; *text != '\0'; text++)
        columns += ((unsigned char)*text & 0xc0) != 0x80;
    return columns;
}

static int widest_bank(uint64_t language)
{
    const char *bank;
    int widest = 0;
    for (uint64_t sheet = 1; (bank = abo_say_bank_in(language, sheet)) != NULL; sheet++)
        if (columns_of(bank) > widest)
            widest = columns_of(bank);
    return widest;
}

void print_sheets_table(FILE *to, const struct job *j)
{
    uint64_t language = j->ask->language;
    const struct abo_sheet_words *words;
    int width = widest_bank(language);
    for (uint64_t sheet = 1; (words = abo_say_sheet(sheet)) != NULL; sheet++) {
        struct abo_finding first;
        struct abo_list list = ask(j, sheet, &first);
        const char *bank = abo_say_bank_in(language, sheet);
        char verdict[ABO_TELL_BYTES];
        abo_tell_verdict(language, &list, &first, verdict, sizeof verdict);
        fprintf(to, "  %c  %s  %s%*s  %s\n", words->letter, words->code, bank, width - columns_of(bank), "", verdict);
    }
}

enum status by_any_sheet(const struct job *j)
{
    for (uint64_t sheet = 1; abo_say_sheet(sheet) != NULL; sheet++) {
        struct abo_finding first;
        struct abo_list list = ask(j, sheet, &first);
        bool warned = list.count + list.needed > 0;
        if (list.refused == 0 && !(j->ask->strict && warned))
            return ACCEPTED;
    }
    return REFUSED;
}
