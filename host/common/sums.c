#include "sums.h"

#include <inttypes.h>
#include <stdbool.h>
#include <string.h>

#include <abo_say.h>

/* an item's amount and a group's sum are below this */
static const uint64_t part = UINT64_C(100000000000000);

void add_haler(struct sum *s, uint64_t haler)
{
    s->high += haler / part;
    s->low += haler % part;
    s->high += s->low / part;
    s->low %= part;
}

void spell_sum(char text[SUM_ROOM], struct sum s)
{
    if (s.high > 0)
        snprintf(text, SUM_ROOM, "%" PRIu64 "%012" PRIu64 ".%02" PRIu64, s.high, s.low / 100, s.low % 100);
    else
        snprintf(text, SUM_ROOM, "%" PRIu64 ".%02" PRIu64, s.low / 100, s.low % 100);
}

void print_count(FILE *to, uint64_t count, const char *noun)
{
    fprintf(to, "%" PRIu64 " %s%s", count, noun, count == 1 ? "" : "s");
}

/* Czech is the one word for any count. */
void print_warnings(FILE *to, uint64_t language, uint64_t count)
{
    if (language == ABO_CZECH)
        fprintf(to, "%" PRIu64 " varování", count);
    else
        print_count(to, count, "warning");
}

/* The items of account files of one kind; how many there are, and whether something stood before. */
static bool print_kind(FILE *to, uint64_t language, const union abo_row *rows, size_t count, uint64_t kind, bool behind)
{
    struct sum sum = {0, 0};
    uint64_t items = 0, file = 0;
    char text[SUM_ROOM];
    for (size_t i = 0; i < count; i++) {
        if (rows[i].word[ABO_FIELD_ROW] == ABO_ROW_FILE)
            file = rows[i].file.kind;
        if (rows[i].word[ABO_FIELD_ROW] != ABO_ROW_ITEM || file != kind)
            continue;
        add_haler(&sum, rows[i].item.amount);
        items++;
    }
    if (items == 0)
        return behind;
    spell_sum(text, sum);
    if (language == ABO_CZECH)
        *strchr(text, '.') = ',';
    fprintf(to, "%s%" PRIu64 " %s, %s %s", behind ? ", " : "", items, abo_say_items_in(language, kind, items), text,
            language == ABO_CZECH ? "Kč" : "crowns");
    return true;
}

void print_payments(FILE *to, uint64_t language, const union abo_row *rows, size_t count)
{
    bool behind = false;
    for (uint64_t kind = 1501; kind <= 1504; kind++)
        behind = print_kind(to, language, rows, count, kind, behind);
}
