#include "collections.h"
#include "dice.h"
#include "limits.h"
#include "plain.h"

#include <string.h>

enum { OTHER_BANK = 800 };

/* Before the first day there is none, nor behind the last one. */
static size_t near_place(size_t place, int step)
{
    if ((step < 0 && place == 0) || (step > 0 && place == DAYS - 1))
        return place;
    return step < 0 ? place - 1 : place + (size_t)step;
}

static size_t day_of(size_t today, unsigned which)
{
    size_t last = month_ahead(today), end = month_end(last);
    const size_t days[COLLECTION_DAYS] = {
        near_place(today, -1), today, near_place(today, 1), near_place(last, -1),
        last, near_place(last, 1), end, near_place(end, 1)};
    return days[which / 2];
}

static bool is_own(unsigned which)
{
    return which % 2 == 0;
}

static uint64_t bank_of(unsigned sheet, unsigned which)
{
    return is_own(which) ? own_bank(sheet) : OTHER_BANK;
}

bool collection_taken(size_t today, unsigned which)
{
    size_t day = day_of(today, which), first = is_own(which) ? today : today + 1;
    return first <= day && day <= month_ahead(today);
}

void collection_file(struct made *made, unsigned sheet, size_t today,
                     unsigned which)
{
    struct text *t = &made->file;
    made->sheet = sheet;
    made->today = day_at(today);
    text_clear(t);
    put_plain_first(t, sheet);
    text_byte(t, '\n');
    put_plain_file(t, sheet, COLLECTIONS, 0);
    text_words(t, "\n2 19 1 ");
    text_number(t, short_day_at(day_of(today, which)), 6);
    text_words(t, "\n19 1 0 ");
    text_number(t, bank_of(sheet, which), 4);
    text_words(t, "0558\n3 +\n5 +\n");
}

static void put_row(struct text *rows, const uint64_t *words, size_t used)
{
    for (size_t i = 0; i < ABO_ROW_WORDS; i++)
        text_word(rows, i < used ? words[i] : 0);
}

void collection_draft(struct draft *draft, unsigned sheet, size_t today,
                      unsigned which)
{
    const uint64_t file[] = {ABO_ROW_FILE, COLLECTIONS, 0};
    const uint64_t group[] = {ABO_ROW_GROUP, day_at(day_of(today, which)), 0, 19};
    const uint64_t item[] = {ABO_ROW_ITEM, 0, 0, 0, 19, bank_of(sheet, which), 1,
                             0, 0, 558, ABO_PRIORITY_USUAL};
    text_clear(&draft->rows);
    text_clear(&draft->texts);
    put_row(&draft->rows, file, COUNT_OF(file));
    put_row(&draft->rows, group, COUNT_OF(group));
    put_row(&draft->rows, item, COUNT_OF(item));
    memset(draft->name, ' ', sizeof draft->name);
    draft->name_len = ABO_NAME_BYTES;
    draft->date = draft->today = day_at(today);
    draft->client = draft->from = draft->to = 0;
    draft->sheet = sheet;
}
