/* Kind 1502 on C and P (request W-202), by the numbers of its readings and by
   its cases; then from every day.  More of its rows are in
   test_collection_rows.c. */
#include "check.h"

#define COLLECT(sheet_, ...) \
    FRAME(sheet_, .file = "1 1502 000000 0300", __VA_ARGS__)
#define ITEM "705 5001 42 03000558"
#define FROM_OTHER "705 5001 42 08000558"

enum { OWN = 300, OTHER = 800 };

static struct batch_in b;

/* ---- one group with one item ---- */

static const char *group_due(uint64_t day)
{
    static char room[40];
    snprintf(room, sizeof room, "2 19-19 5001 %02d%02d%02d", (int)(day % 100),
             (int)(day / 100 % 100), (int)(day / 10000 % 100));
    return room;
}

/* The same as rows. */
static void batch_collection(uint64_t day, uint64_t bank)
{
    batch_start(&b);
    b.words[0][1] = 1502;
    b.words[1][1] = day;
    b.words[2][5] = bank;
}

/* Read and written on that day; outside its days 11 at the item's bank field,
   and 21 at that field of its row. */
static void judged(const char *what, unsigned sheet, uint64_t today,
                   uint64_t day, unsigned bank, bool inside)
{
    char item[40];
    snprintf(item, sizeof item, "705 5001 42 %04u0558", bank);
    const char *file = COLLECT(sheet, .group = group_due(day), .item = item);
    batch_collection(day, bank);
    struct peer_written w = batch_write(&b, sheet, today, 4096);
    if (inside) {
        uint64_t(*row)[WORDS] = accepted_on(what, sheet, today, file, 3, 0);
        CHECK(what, row[1][1] == day && row[2][5] == bank);
        CHECK(what, w.number == 0);
    } else {
        refused_on(what, sheet, today, file, 11, 4, 12);
        CHECK(what, w.number == 21 && w.row == 3 && w.field == 5);
    }
}

static void first_days(unsigned sheet)
{
    judged("Cases: 0300 today", sheet, TODAY, TODAY, OWN, true);
    judged("Cases: 0800 today", sheet, TODAY, TODAY, OTHER, false);
    judged("Cases: 0300 yesterday", sheet, TODAY, 20171231, OWN, false);
    judged("Cases: 0800 yesterday", sheet, TODAY, 20171231, OTHER, false);
    judged("0300 tomorrow", sheet, TODAY, 20180102, OWN, true);
    judged("0800 tomorrow", sheet, TODAY, 20180102, OTHER, true);
    judged("5: long past", sheet, TODAY, 20000101, OWN, false);
    for (unsigned bank = 1; bank <= 9999; bank += bank < 400 ? 1 : 331)
        judged("4: each bank but 0300", sheet, TODAY, TODAY, bank, bank == OWN);
    judged("Cases: 0300 at the end", sheet, 20991231, 20991231, OWN, true);
    judged("Cases: 0800 at the end", sheet, 20991231, 20991231, OTHER, false);
    judged("3: 0300 before the end", sheet, 20991231, 20991230, OWN, false);
    judged("3: 0800 a day sooner", sheet, 20991230, 20991231, OTHER, true);
}

/* For both banks one day is inside and the other is not. */
static const struct {
    const char *what;
    uint64_t today, inside, outside;
} ends[] = {
    {"Cases: from 1 January", 20180101, 20180201, 20180202},
    {"5: 365 ahead", 20180101, 20180201, 20190101},
    {"5: 400 ahead", 20180101, 20180201, 20190205},
    {"5: the last day", 20180101, 20180201, 20991231},
    {"2: from 27 January", 20180127, 20180227, 20180228},
    {"2: from 28 January", 20180128, 20180228, 20180301},
    {"2: from 29 January", 20180129, 20180228, 20180301},
    {"2: from 30 January", 20180130, 20180228, 20180301},
    {"Cases: from 31 January", 20180131, 20180228, 20180301},
    {"Cases: from 28 February", 20180228, 20180328, 20180329},
    {"Cases: from 28 February", 20180228, 20180328, 20180331},
    {"2: from 31 March", 20180331, 20180430, 20180501},
    {"2: from 30 April", 20180430, 20180530, 20180531},
    {"Cases: from 31 December", 20181231, 20190131, 20190201},
    {"Cases: from 31 January 2024", 20240131, 20240229, 20240301},
    {"leap: from 30 January", 20240130, 20240229, 20240301},
    {"leap: from 29 January", 20240129, 20240229, 20240301},
    {"leap: from 28 January", 20240128, 20240228, 20240229},
    {"leap: from 28 February", 20240228, 20240328, 20240329},
    {"leap: from 29 February", 20240229, 20240329, 20240330},
    {"leap: 2000", 20000131, 20000229, 20000301},
    {"leap: 2096", 20960131, 20960229, 20960301},
    {"leap: not 2099", 20990131, 20990228, 20990301},
    {"3: from 30 November 2099", 20991130, 20991230, 20991231},
    {"3: from 1 December 2099", 20991201, 20991231, 20991130},
};

static void last_days(unsigned sheet)
{
    for (size_t i = 0; i < sizeof ends / sizeof *ends; i++)
        for (unsigned bank = OWN; bank <= OTHER; bank += OTHER - OWN) {
            judged(ends[i].what, sheet, ends[i].today, ends[i].inside, bank,
                   true);
            judged(ends[i].what, sheet, ends[i].today, ends[i].outside, bank,
                   false);
        }
}

/* ---- other kinds, other sheets ---- */

static void kept_days_1(unsigned sheet, uint64_t kind)
{
    char head[30];
    snprintf(head, sizeof head, "1 %d 000000 0300", (int)kind);
    accepted("1: today", sheet,
             FRAME(sheet, .file = head, .group = group_due(TODAY),
                   .item = FROM_OTHER), 3, 0);
    accepted("1: a past day warns", sheet,
             FRAME(sheet, .file = head, .group = group_due(20171231),
                   .item = FROM_OTHER), 3, 1);
    accepted("1: 365 ahead", sheet,
             FRAME(sheet, .file = head, .group = group_due(20190101)), 3, 0);
    refused("1: 366 ahead", sheet,
            FRAME(sheet, .file = head, .group = group_due(20190102)), 11, 3,
            13);
    batch_collection(20190102, OTHER);
    b.words[0][1] = kind;
    not_written("1: 366 ahead", &b, sheet, 21, 2, 1);
    b.words[1][1] = 20171231;
    CHECK("1: a past day", batch_write(&b, sheet, TODAY, 4096).number == 0);
}

static void collections_of_s_1(void)
{
    static const uint64_t days[] = {20180101, 20180202, 20190102, 20991231};
    for (size_t i = 0; i < 8; i++) {
        bool own = i % 2 == 0;
        accepted("1: S", S,
                 FRAME(S, .file = "1 1502 000000 0800",
                       .group = group_due(days[i / 2]),
                       .item = own ? ITEM "  " : FROM_OTHER "  "), 3, 0);
        batch_collection(days[i / 2], own ? OWN : OTHER);
        CHECK("1: S", batch_write(&b, S, TODAY, 4096).number == 0);
    }
    refused("1: S, a past day", S,
            FRAME(S, .file = "1 1502 000000 0800",
                  .group = group_due(20171231)), 11, 3, 13);
    batch_collection(20171231, OWN);
    not_written("1: S, a past day", &b, S, 21, 2, 1);
}

/* ---- places and order ---- */

static void bank_of_the_file_4(void)
{
    static const char *const heads[] = {"1 1502 000000 0800",
                                        "1 1502 000000 0300",
                                        "1 1502 000000 0000"};
    for (size_t i = 0; i < 3; i++) {
        accepted("4: 0300 today", C,
                 FRAME(C, .file = heads[i], .group = group_due(TODAY)), 3, 0);
        refused("4: 0800 today", C,
                FRAME(C, .file = heads[i], .group = group_due(TODAY),
                      .item = FROM_OTHER), 11, 4, 12);
    }
}

static void own_field_5(unsigned sheet)
{
    static const struct {
        const char *date;
        unsigned number;
    } dates[] = {
        {"290218", 11},   {"320118", 11},   {"000118", 11},   {"011318", 11},
        {"20180229", 11}, {"19991231", 11}, {"21000101", 11}, {"2018012", 4},
        {"20118", 4},     {"0201x8", 4},    {"201801020", 4}, {"", 4},
    };
    char group[40];
    for (size_t i = 0; i < sizeof dates / sizeof *dates; i++) {
        snprintf(group, sizeof group, "2 19-19 5001 %s", dates[i].date);
        refused("5: the date's own field", sheet,
                COLLECT(sheet, .group = group, .item = "706"), dates[i].number,
                3, 13);
    }
    accepted("5: eight digits", sheet,
             COLLECT(sheet, .group = "2 19-19 5001 20180201"), 3, 0);
    refused("5: eight digits", sheet,
            COLLECT(sheet, .group = "2 19-19 5001 20180202"), 11, 4, 12);
    refused("5: a space behind the day", sheet,
            COLLECT(sheet, .group = "2 19-19 5001 20190205 "), 4, 3, 21);
    const char *file =
        COLLECT(sheet, .group = group_due(20190205), .item = "3 +");
    refused("5: the close for an item", sheet, file, 3, 4, 0);
    size_t len = (size_t)(strstr(file, "\n3 +") + 1 - file);
    refused_bytes("5: the end for an item", sheet, TODAY, file, len, 3, 4, len);
}

/* What comes before 11 and what after it. */
static const struct {
    const char *item;
    unsigned number;
    size_t plus;
    bool before;
} faults[] = {
    {"705 5001 42 00000558", 12, 12, true},
    {"705 5001 42 9900000558", 12, 12, true},
    {"705 5001 42 103000558", 13, 12, true},
    {"705 5001 42 1008000558", 13, 12, true},
    {"705 5001 42 0300055x", 4, 12, true},
    {"705 5001 42 3000558", 4, 12, true},
    {"706 5001 42 03000558", 5, 0, true},
    {"705 0 42 03000558", 6, 4, true},
    {"705 5001 42x 03000558", 4, 9, true},
    {"705 5001 42", 4, 11, true},
    {ITEM " ", 4, 21, false},
    {ITEM " 17 ", 4, 24, false},
    {ITEM " 17 AV:a|b|c|d|e", 14, 24, false},
    {ITEM " 17 AV:\x1f", 4, 24, false},
};

static void order_6(unsigned sheet)
{
    for (size_t i = 0; i < sizeof faults / sizeof *faults; i++) {
        bool before = faults[i].before;
        refused("6: on a day that is right", sheet,
                COLLECT(sheet, .item = faults[i].item), faults[i].number, 4,
                faults[i].plus);
        refused("6: on a day in 2019", sheet,
                COLLECT(sheet, .group = group_due(20190205),
                        .item = faults[i].item),
                before ? faults[i].number : 11, 4,
                before ? faults[i].plus : 12);
    }
    refused("6: the item's payer in front", sheet,
            COLLECT(sheet, .group = "2 5001 010118",
                    .item = "19 " FROM_OTHER " "), 11, 4, 15);
    refused("6: ten digits", sheet,
            COLLECT(sheet, .group = group_due(TODAY),
                    .item = "705 5001 42 0008000300"), 11, 4, 12);
}

static void each_item_7(unsigned sheet)
{
#define TWO_TODAY "2 19-19 10002 010118"
    refused("7: the second item", sheet,
            COLLECT(sheet, .group = TWO_TODAY, .item = ITEM "\n" FROM_OTHER),
            11, 5, 12);
    refused("7: the first item", sheet,
            COLLECT(sheet, .group = TWO_TODAY, .item = FROM_OTHER "\n" ITEM),
            11, 4, 12);
    accepted("7: both from 0300", sheet,
             COLLECT(sheet, .group = TWO_TODAY, .item = ITEM "\n" ITEM), 4, 0);
    accepted("7: both banks tomorrow", sheet,
             COLLECT(sheet, .group = "2 19-19 10002 020118",
                     .item = ITEM "\n" FROM_OTHER), 4, 0);
    refused("7: the second group's day", sheet,
            COLLECT(sheet, .item = FROM_OTHER,
                    .close = "3 +\n2 19-19 5001 010118\n" FROM_OTHER "\n3 +"),
            11, 7, 12);
    accepted("7: each group has its own day", sheet,
             COLLECT(sheet, .group = group_due(TODAY),
                     .close = "3 +\n2 19-19 5001 010218\n" FROM_OTHER "\n3 +"),
             5, 0);
}

static void totals_and_warnings_8_10(void)
{
    refused("8: 10 on P", P, COLLECT(P, .group = "2 19-19 5000 010218"), 10, 3,
            8);
    refused("8: 11 before it", P, COLLECT(P, .group = "2 19-19 5000 020218"),
            11, 4, 12);
#define LARGEST "705 99999999999999 42 03000558\n"
    refused("8: the sum passes on C", C,
            COLLECT(C, .item = LARGEST FROM_OTHER), 10, 3, 8);
    refused("8: 11 before it", C,
            COLLECT(C, .group = group_due(TODAY), .item = LARGEST FROM_OTHER),
            11, 5, 12);
    accepted("10: other warnings stay", C,
             COLLECT(C, .group = "2 19-19 1 010118",
                     .item = ITEM " NP:123456789012345678901234567890123456"),
             3, 2);
}

/* 10, 11: another kind behind the first account file. */
static void kind_at_hand_11(unsigned sheet)
{
#define BEHIND(kind, day)                            \
    "5 +\n1 " kind " 000000 0300\n2 19-19 5001 " day \
    "\n" FROM_OTHER "\n3 +\n5 +"
    accepted("11: a past payment behind collections", sheet,
             COLLECT(sheet, .end = BEHIND("1501", "311217")), 6, 1);
    accepted("11: 365 ahead behind collections", sheet,
             COLLECT(sheet, .end = BEHIND("1501", "010119")), 6, 0);
    refused("11: 366 ahead behind collections", sheet,
            COLLECT(sheet, .end = BEHIND("1501", "020119")), 11, 8, 13);
    accepted("11: collections behind a past payment", sheet,
             FRAME(sheet, .group = group_due(20171231),
                   .end = BEHIND("1502", "010218")), 6, 1);
    refused("11: past collections behind a payment", sheet,
            FRAME(sheet, .end = BEHIND("1502", "311217")), 11, 9, 12);
    if (sheet != C)
        return;
    accepted("11: 1503 behind collections", C,
             COLLECT(C, .end = BEHIND("1503", "311217")), 6, 1);
    refused("11: collections behind 1504", C,
            FRAME(C, .file = "1 1504 000000 0300",
                  .end = BEHIND("1502", "010118")), 11, 9, 12);
}

/* ---- every day ---- */

static uint64_t next_day(uint64_t date)
{
    static const unsigned lengths[] = {31, 28, 31, 30, 31, 30,
                                       31, 31, 30, 31, 30, 31};
    uint64_t year = date / 10000, month = date / 100 % 100;
    uint64_t leap_day = month == 2 && year % 4 == 0;
    if (date % 100 < lengths[month - 1] + leap_day)
        return date + 1;
    return month < 12 ? year * 10000 + (month + 1) * 100 + 1
                      : (year + 1) * 10000 + 101;
}

/* From day to day: out of this month, then on in the next one as long as it
   lasts, at most to the day with today's number. */
static uint64_t walked_ahead(uint64_t today)
{
    uint64_t day = today;
    while (day / 100 == today / 100)
        day = next_day(day);
    while (day % 100 != today % 100 && next_day(day) / 100 == day / 100)
        day = next_day(day);
    return day;
}

/* Does reading give this number?  Days outside the century are passed over. */
static bool reads(unsigned sheet, uint64_t today, uint64_t day,
                  const char *item, uint64_t number)
{
    uint8_t rows[3 * ROW];
    const char *file = COLLECT(sheet, .group = group_due(day), .item = item);
    if (day < 20000101 || day > 20991231)
        return true;
    return peer_read((const uint8_t *)file, strlen(file), sheet, today, rows,
                     sizeof rows)
               .number == number;
}

/* 2, 3, from each day of the century. */
static void every_day(unsigned sheet)
{
    uint64_t yesterday = 0, count = 0;
    for (uint64_t today = 20000101; today <= 20991231; count++) {
        uint64_t tomorrow = next_day(today);
        uint64_t last = walked_ahead(today), behind = next_day(last);
        CHECK("2: every day, from 0300",
              reads(sheet, today, yesterday, ITEM, 11) &&
                  reads(sheet, today, today, ITEM, 0) &&
                  reads(sheet, today, last, ITEM, 0) &&
                  reads(sheet, today, behind, ITEM, 11));
        CHECK("2: every day, from elsewhere",
              reads(sheet, today, today, FROM_OTHER, 11) &&
                  reads(sheet, today, tomorrow, FROM_OTHER, 0) &&
                  reads(sheet, today, last, FROM_OTHER, 0) &&
                  reads(sheet, today, behind, FROM_OTHER, 11));
        yesterday = today;
        today = tomorrow;
    }
    CHECK("2: every day", count == 36525);
}

void test_collections(void)
{
    static const unsigned sheets[] = {C, P};
    for (size_t i = 0; i < 2; i++) {
        first_days(sheets[i]);
        last_days(sheets[i]);
        kept_days_1(sheets[i], 1501);
        own_field_5(sheets[i]);
        order_6(sheets[i]);
        each_item_7(sheets[i]);
        kind_at_hand_11(sheets[i]);
        every_day(sheets[i]);
    }
    kept_days_1(C, 1503);
    kept_days_1(C, 1504);
    collections_of_s_1();
    bank_of_the_file_4();
    totals_and_warnings_8_10();
}
