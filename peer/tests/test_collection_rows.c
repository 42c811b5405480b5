/* Kind 1502 on C and P in writing (request W-202, reading 9), and groups by
   chance in writing and reading. */
#include "check.h"

#define ITEM "705 5001 42 03000558"
#define CRLF "\r\n"

enum { OWN = 300, OTHER = 800 };

static struct batch_in b;

static void batch_collection(uint64_t day, uint64_t bank)
{
    batch_start(&b);
    b.words[0][1] = 1502;
    b.words[1][1] = day;
    b.words[2][5] = bank;
}

/* Against field 5 the sheet's other 21 of an item: priority and texts.  An
   amount that is only too large for the sheet is on S and E alone. */
static void fields_9(unsigned sheet)
{
    batch_collection(20190205, OWN);
    batch_text(&b, b.words[2], 11, sheet == C ? "a NP:b" : "#");
    not_written("9: before a text", &b, sheet, 21, 3, 5);
    b.words[2][10] = 7;
    not_written("9: before the priority", &b, sheet, 21, 3, 5);
    b.words[2][6] = 99999999999999;
    not_written("9: before the largest amount", &b, sheet, 21, 3, 5);
    b.words[1][1] = 20180201;
    not_written("9: on a day that is right, the priority", &b, sheet, 21, 3,
                10);
    b.words[2][10] = 5;
    not_written("9: and a text", &b, sheet, 21, 3, 11);
    batch_collection(TODAY, OTHER);
    batch_text(&b, b.words[2], 19, "Jan");
    not_written("9: before the name", &b, sheet, 21, 3, 5);
}

static void first_20_9(unsigned sheet)
{
    batch_collection(20180229, OTHER);
    not_written("9: a day that is not real", &b, sheet, 20, 2, 1);
    batch_collection(20190205, 0);
    not_written("9: bank 0", &b, sheet, 20, 3, 5);
    batch_collection(20190205, 10000);
    not_written("9: bank 10000", &b, sheet, 20, 3, 5);
    batch_collection(20190205, OTHER);
    b.words[2][6] = 0;
    not_written("9: 20 at a later field", &b, sheet, 20, 3, 6);
    batch_collection(20190205, OTHER);
    batch_item(&b)[10] = 2;
    not_written("9: 20 in a later row", &b, sheet, 20, 4, 10);
    b.words[3][0] = 9;
    not_written("9: 20 at a later row's kind", &b, sheet, 20, 4, 0);
}

/* No limit of items over the whole file, so field 0 is never before 5. */
static void many_items_9(unsigned sheet)
{
    batch_collection(TODAY, OWN);
    while (b.rows < 1003)
        batch_item(&b)[6] = 1;
    CHECK("9: 1,001 items",
          batch_write(&b, sheet, TODAY, 100000).number == 0);
    b.words[1002][5] = OTHER;
    not_written("9: item 1,001 from elsewhere", &b, sheet, 21, 1003, 5);
}

static void rows_9(unsigned sheet)
{
    batch_collection(TODAY, OWN);
    batch_item(&b)[5] = OTHER;
    not_written("9: the second item", &b, sheet, 21, 4, 5);
    b.words[2][10] = 7;
    not_written("9: the upper row first", &b, sheet, 21, 3, 10);
    batch_collection(TODAY, OWN);
    batch_group(&b, 20180202, 19, 19);
    batch_item(&b);
    not_written("9: the second group's item", &b, sheet, 21, 5, 5);
    b.words[3][1] = 20180201;
    b.words[4][5] = OTHER;
    CHECK("9: carried", batch_write(&b, sheet, TODAY, 4096).number == 0);
    batch_file(&b, 1501, 0);
    batch_group(&b, 20171231, 19, 19);
    batch_item(&b)[5] = OTHER;
    CHECK("11: a past payment behind collections",
          batch_write(&b, sheet, TODAY, 4096).number == 0);
    b.words[6][1] = 20190102;
    not_written("11: 366 ahead behind collections", &b, sheet, 21, 7, 1);
    b.words[5][1] = 1502;
    not_written("11: and as a collection", &b, sheet, 21, 8, 5);
    b.words[0][1] = 1501;
    b.words[1][1] = 20190102;
    not_written("11: the payment's group first", &b, sheet, 21, 2, 1);
}

#define CANONICAL                            \
    "1 1502 000999 0300" CRLF                \
    "2 19-19 5002 010118" CRLF               \
    ITEM CRLF                                \
    "705 1 42 03000558 17 AV:led" CRLF       \
    "3 +" CRLF                               \
    "2 10002 010218" CRLF                    \
    "19 705 5001 42 08000558" CRLF           \
    "19-19 " ITEM CRLF                       \
    "3 +" CRLF                               \
    "5 +" CRLF

static void canonical_batch(void)
{
    batch_collection(TODAY, OWN);
    b.words[0][2] = 999;
    uint64_t *item = batch_item(&b);
    item[6] = 1;
    item[8] = 17;
    batch_text(&b, item, 11, "led");
    batch_group(&b, 20180201, 0, 0);
    item = batch_item(&b);
    item[2] = 19;
    item[5] = OTHER;
    item = batch_item(&b);
    item[1] = item[2] = 19;
}

/* What is carried comes back. */
static void canonical_9(unsigned sheet)
{
    const char *want = sheet == C ? "UHL1" CRLF CANONICAL
                                  : FIRST_58 CRLF CANONICAL;
    char order[400], out[400];
    canonical_batch();
    written("Canonical: collections", &b, sheet, want);
    uint64_t(*row)[WORDS] =
        accepted("Canonical: they come back", sheet, want, 7, 0);
    CHECK("Canonical: their texts", says(want, row[3], 11, "led"));
    row[3][11] = b.words[3][11];
    CHECK("Canonical: their rows", memcmp(row, b.words, 7 * ROW) == 0);
    int len = snprintf(order, sizeof order, "%c 010118\n%s",
                       sheet == C ? 'C' : 'P', want);
    struct peer_text t = peer_rewrite((const uint8_t *)order, (size_t)len,
                                      (uint8_t *)out, sizeof out);
    CHECK("Canonical: rewriting keeps them",
          t.number == 0 && t.bytes == strlen(want) &&
              memcmp(out, want, strlen(want)) == 0);
}

/* ---- groups by chance ---- */

/* Around a day that is today: the day before and the day after, the last day
   and the one behind it. */
enum { BEFORE, ON, AFTER, LAST, BEHIND };
static const uint64_t spans[][5] = {
    {20171231, 20180101, 20180102, 20180201, 20180202},
    {20180130, 20180131, 20180201, 20180228, 20180301},
    {20240130, 20240131, 20240201, 20240229, 20240301},
    {20240228, 20240229, 20240301, 20240329, 20240330},
    {20181230, 20181231, 20190101, 20190131, 20190201},
    {20991129, 20991130, 20991201, 20991230, 20991231},
};

/* The first item that is refused. */
struct fault {
    uint64_t row, line;
    size_t plus;
};

static struct fault draw_collections(const uint64_t *span)
{
    static const uint64_t banks[] = {OWN, OWN, OWN, OTHER, 301, 1};
    struct fault fault = {0, 0, 0};
    batch_collection(0, 0);
    b.rows = 1;
    uint64_t groups = 1 + below(4);
    for (uint64_t group = 0; group < groups; group++) {
        /* Most days are inside, so that some files are accepted. */
        size_t when = one_in(8) ? below(5) : ON + below(3);
        bool single = one_in(2);
        batch_group(&b, span[when], 0, single ? 0 : 19);
        for (uint64_t i = 1 + below(3); i > 0; i--) {
            uint64_t *item = batch_item(&b);
            item[2] = single ? 19 : 0;
            item[5] = banks[when == ON && !one_in(4) ? 0 : below(6)];
            size_t soonest = item[5] == OWN ? ON : AFTER;
            if (fault.row == 0 && (when < soonest || when > LAST))
                fault = (struct fault){b.rows, 1 + b.rows + group,
                                       single ? 15 : 12};
        }
    }
    return fault;
}

/* Payments have all these days, so their file only needs another kind to be
   the file of the collections. */
static bool drawn_as_told(unsigned sheet, const uint64_t *span)
{
    static char file[4096];
    uint64_t today = span[ON];
    struct fault fault = draw_collections(span);
    struct peer_written w = batch_write(&b, sheet, today, sizeof file);
    CHECK("chance: 21 at the first item outside its days",
          w.number == (fault.row != 0 ? 21 : 0) && w.row == fault.row &&
              w.field == (fault.row != 0 ? 5 : 0));
    b.words[0][1] = 1501;
    size_t len = (size_t)batch_write(&b, sheet, today, sizeof file).bytes;
    memcpy(file, test_out, len);
    file[offset_of(file, len, 2, 5)] = '2';
    if (fault.row != 0)
        refused_bytes("chance: 11 there", sheet, today, file, len, 11,
                      fault.line,
                      offset_of(file, len, fault.line, fault.plus));
    else
        accepted_bytes("chance: accepted without a warning", sheet, today, file,
                       len, b.rows, 0);
    return fault.row == 0;
}

static void chance(unsigned sheet)
{
    unsigned told = 0;
    for (size_t i = 0; i < 600; i++)
        told += drawn_as_told(sheet, spans[i % 6]);
    CHECK("chance: accepted and refused", told > 100 && told < 500);
}

void test_collection_rows(void)
{
    static const unsigned sheets[] = {C, P};
    for (size_t i = 0; i < 2; i++) {
        fields_9(sheets[i]);
        first_20_9(sheets[i]);
        many_items_9(sheets[i]);
        rows_9(sheets[i]);
        canonical_9(sheets[i]);
        chance(sheets[i]);
    }
}
