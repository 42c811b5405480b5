#include "large.h"
#include "plain.h"
#include "plan.h"

/* All of K's numbers differ in their first three digits, up to 1,000. */
static void put_file_head(struct text *t, unsigned sheet, uint64_t place)
{
    put_plain_file(t, sheet, PAYMENTS, place % 1000 * 1000);
    text_byte(t, '\n');
}

static void put_group_head(struct text *t, uint64_t items, uint64_t amount)
{
    uint64_t sum = items * amount;
    text_words(t, "2 19 ");
    text_number(t, sum < MOST_SUM ? sum : MOST_SUM, 1);
    text_words(t, " 020118\n");
}

static void put_items(struct text *t, unsigned sheet, uint64_t items,
                      uint64_t amount)
{
    for (uint64_t i = 0; i < items; i++) {
        put_plain_item(t, sheet, amount);
        text_byte(t, '\n');
    }
}

/* The file as far as its first line. */
static void begin(struct made *made, unsigned sheet)
{
    made->sheet = sheet;
    made->today = PLAIN_TODAY;
    text_clear(&made->file);
    put_plain_first(&made->file, sheet);
    text_byte(&made->file, '\n');
}

void make_bulk(struct made *made, unsigned sheet, const struct bulk *bulk)
{
    struct text *t = &made->file;
    uint64_t amount = bulk->amount != 0 ? bulk->amount : 1;
    begin(made, sheet);
    for (uint64_t f = 0; f < bulk->files; f++) {
        put_file_head(t, sheet, f);
        for (uint64_t g = 0; g < bulk->groups; g++) {
            put_group_head(t, bulk->items, amount);
            put_items(t, sheet, bulk->items, amount);
            if (bulk->behind == NULL || g + 1 < bulk->groups)
                text_words(t, "3 +\n");
        }
        if (bulk->behind == NULL || f + 1 < bulk->files)
            text_words(t, "5 +\n");
    }
    if (bulk->behind != NULL)
        text_words(t, bulk->behind);
}

void make_pair(struct made *made, unsigned first, unsigned second)
{
    static const char group[] = "2 19 1 020118\n19 1 0 03000558\n3 +\n5 +\n";
    begin(made, K);
    put_file_head(&made->file, K, first);
    text_words(&made->file, group);
    put_file_head(&made->file, K, second);
    text_words(&made->file, group);
}

unsigned partner_of(unsigned first, unsigned which)
{
    static const unsigned steps[PARTNERS] = {0, 1, 999, 8, 32, 64};
    return (first + steps[which]) % 1000;
}

static const struct bulk list[] = {
    /* Items of an account file: the last one taken and the first one not, in
       one group and in many. */
    {.files = 1, .groups = 1, .items = 99999},
    {.files = 1, .groups = 1, .items = 100000},
    {.files = 1, .groups = 99999, .items = 1},
    {.files = 1, .groups = 100000, .items = 1},
    {.files = 1, .groups = 3, .items = 33333},
    {.files = 1, .groups = 3, .items = 33334},
    /* They count anew in each account file. */
    {.files = 2, .groups = 1, .items = 99999},
    /* The count is tested before the fields of item 100,000, and what is no
       item is no item too many. */
    {.files = 1, .groups = 1, .items = 99999, .behind = "x\n3 +\n5 +\n"},
    {.files = 1, .groups = 1, .items = 99999, .behind = "\n"},
    {.files = 1, .groups = 1, .items = 99999, .behind = "5 +\n"},
    {.files = 1, .groups = 1, .items = 99999, .behind = ""},
    {.files = 1, .groups = 1, .items = 99999, .behind = "3 x\n"},
    /* A sum that needs all of 64 bits. */
    {.files = 1, .groups = 1, .items = 99999, .amount = MOST_SUM},
    {.files = 1, .groups = 1, .items = 3, .amount = MOST_SUM},
    {.files = 1, .groups = 1, .items = 102, .amount = MOST_SMALL},
    /* Account files. */
    {.files = 999, .groups = 1, .items = 1},
    {.files = 1000, .groups = 1, .items = 1},
    {.files = 1001, .groups = 1, .items = 1},
    {.files = 1002, .groups = 1, .items = 1},
    {.files = 1000, .groups = 1, .items = 1, .behind = "3 +\n5 +\n1 x\n"},
    {.files = 1000, .groups = 1, .items = 1, .behind = "3 +\n5 +\n1x\n"},
    {.files = 1000, .groups = 1, .items = 1, .behind = "3 +\n5 +\n"},
    {.files = 1000, .groups = 3, .items = 2},
    /* Items of a whole file, for S. */
    {.files = 1, .groups = 1, .items = 1000},
    {.files = 1, .groups = 1, .items = 1001},
    {.files = 10, .groups = 10, .items = 10},
    {.files = 7, .groups = 11, .items = 13},
    {.files = 1, .groups = 1000, .items = 1},
    {.files = 1, .groups = 1001, .items = 1},
    {.files = 1, .groups = 1, .items = 1000, .behind = "x\n3 +\n5 +\n"},
    {.files = 1, .groups = 1, .items = 1000, .behind = "2 x\n"},
};

/* A ladder of small counts at each level: code that works off its lines in
   portions has its borders somewhere here. */
enum { RUNGS = 200 };

bool large_file(struct made *made, unsigned sheet, unsigned place)
{
    struct bulk rung = {.files = 1, .groups = 1, .items = 1};
    if (place < COUNT_OF(list)) {
        make_bulk(made, sheet, &list[place]);
        return true;
    }
    place -= (unsigned)COUNT_OF(list);
    if (place >= 3 * RUNGS)
        return false;
    uint64_t *const levels[] = {&rung.files, &rung.groups, &rung.items};
    *levels[place / RUNGS] = place % RUNGS + 1;
    make_bulk(made, sheet, &rung);
    return true;
}
