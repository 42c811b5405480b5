/* The cases of document 01: edges, each number of reading, warnings, order. */
#include "check.h"

/* An item of the frame with this payee. */
static const char *item_to(unsigned sheet, const char *payee)
{
    static char room[100];
    snprintf(room, sizeof room, "%s 5001 42 03000558%s", payee,
             sheet == S ? "  " : "");
    return room;
}

static void edge_accounts(void)
{
    static const struct {
        const char *spelled;
        uint64_t prefix, base;
    } right[] = {
        {"19-19", 19, 19},
        {"5152046", 0, 5152046},
        {"174-1999738514", 174, 1999738514},
        {"500005-2267100237", 500005, 2267100237},
    };
    for (unsigned sheet = K; sheet <= P; sheet++) {
        for (size_t i = 0; i < 4; i++) {
            uint64_t(*row)[WORDS] = accepted(
                "Edges: valid account", sheet,
                FRAME(sheet, .item = item_to(sheet, right[i].spelled)), 3, 0);
            CHECK("Edges: account's words",
                  row[2][3] == right[i].prefix && row[2][4] == right[i].base);
        }
        refused("Edges: 1234567890", sheet,
                FRAME(sheet, .item = item_to(sheet, "1234567890")), 5, 4, 0);
        refused("Edges: 0 as base", sheet,
                FRAME(sheet, .item = item_to(sheet, "0")), sheet == K ? 4 : 5,
                4, 0);
        refused("Edges: 00 as base", sheet,
                FRAME(sheet, .item = item_to(sheet, "00")), 5, 4, 0);
        refused("Edges: 9 as base", sheet,
                FRAME(sheet, .item = item_to(sheet, "9")), sheet == K ? 4 : 5,
                4, 0);
        refused("Accounts: the prefix is weighed by itself", sheet,
                FRAME(sheet, .item = item_to(sheet, "18-19")), 5, 4, 0);
        refused("Accounts: one digit that is not zero", sheet,
                FRAME(sheet, .item = item_to(sheet, "19-0000000000")), 5, 4, 0);
    }
}

static void joined_accounts(void)
{
    static const unsigned joined[] = {C, P};
    for (int i = 0; i < 2; i++) {
        uint64_t(*row)[WORDS] = accepted(
            "Edges: joined on C and P", joined[i],
            FRAME(joined[i], .item = item_to(joined[i], "190000000019")), 3, 0);
        CHECK("Edges: joined is 19-19", row[2][3] == 19 && row[2][4] == 19);
    }
    refused("Edges: joined on K", K,
            FRAME(K, .item = item_to(K, "190000000019")), 4, 4, 0);
    refused("joined on S", S, FRAME(S, .item = item_to(S, "190000000019")), 4,
            4, 0);
    refused("joined on E", E, FRAME(E, .item = item_to(E, "190000000019")), 4,
            4, 0);
}

static void joined_spellings(unsigned sheet)
{
    uint64_t(*row)[WORDS] = accepted(
        "Accounts: 16 digits joined", sheet,
        FRAME(sheet, .item = item_to(sheet, "0000190000000019")), 3, 0);
    CHECK("Accounts: 16 digits are 19-19", row[2][3] == 19 && row[2][4] == 19);
    row = accepted("Accounts: 11 digits joined", sheet,
                   FRAME(sheet, .item = item_to(sheet, "00000000019")), 3, 0);
    CHECK("Accounts: 11 digits are 19", row[2][3] == 0 && row[2][4] == 19);
    refused("Accounts: joined prefix is weighed", sheet,
            FRAME(sheet, .item = item_to(sheet, "180000000019")), 5, 4, 0);
    refused("Accounts: joined base is weighed", sheet,
            FRAME(sheet, .item = item_to(sheet, "190000000018")), 5, 4, 0);
}

static void account_spellings(void)
{
    static const char *const bad[] = {
        "",      "-",        "19-",      "-19",           "19-19-19",
        "19_19", "1a",       "0000019-19", "19-00000000019", "19-19x",
        "x19",   "19--19",   "00000000000000019", "99999999999999999999999",
    };
    for (unsigned sheet = K; sheet <= P; sheet++)
        for (size_t i = 0; i < sizeof bad / sizeof *bad; i++)
            refused("Accounts: spelling", sheet,
                    FRAME(sheet, .item = item_to(sheet, bad[i])), 4, 4, 0);
    joined_spellings(C);
    joined_spellings(P);
    uint64_t(*row)[WORDS] =
        accepted("Accounts: zeros in front", K,
                 FRAME(K, .item = item_to(K, "000019-0000000019")), 3, 0);
    CHECK("Accounts: zeros in front are 19-19",
          row[2][3] == 19 && row[2][4] == 19);
}

static void edge_days(void)
{
    refused_bytes("Edges: 28 February 2100 as today", K, 21000228, "", 0, 2, 0,
                  0);
    refused("Edges: 28 February 2100 as due date", C,
            FRAME(C, .group = "2 19-19 5001 21000228"), 11, 3, 13);
    uint64_t(*row)[WORDS] =
        accepted_on("Edges: 29 February 2024", K, 20240101,
                    FRAME(K, .group = "2 19-19 5001 290224"), 3, 0);
    CHECK("Edges: 29 February 2024 read", row[1][1] == 20240229);
    refused_on("Edges: 290223", K, 20230101,
               FRAME(K, .group = "2 19-19 5001 290223"), 11, 3, 13);
    refused_on("Edges: 290223 on E", E, 20230101,
               FRAME(E, .group = "2 19-19 5001 290223"), 11, 3, 13);
    accepted("Edges: K day 364 ahead", K,
             FRAME(K, .group = "2 19-19 5001 311218"), 3, 0);
    refused("Edges: K day 365 ahead", K,
            FRAME(K, .group = "2 19-19 5001 010119"), 11, 3, 13);
    accepted_on("364 ahead over a leap day", K, 20200101,
                FRAME(K, .group = "2 19-19 5001 301220"), 3, 0);
    refused_on("365 ahead over a leap day", K, 20200101,
               FRAME(K, .group = "2 19-19 5001 311220"), 11, 3, 13);
    refused("month 13", E, FRAME(E, .group = "2 19-19 5001 011318"), 11, 3, 13);
    refused("month 0", E, FRAME(E, .group = "2 19-19 5001 010018"), 11, 3, 13);
    refused("day 0", E, FRAME(E, .group = "2 19-19 5001 000118"), 11, 3, 13);
    refused("31 April", E, FRAME(E, .group = "2 19-19 5001 310418"), 11, 3, 13);
}

/* The number reading gives for a due date; both days are YYYYMMDD. */
static uint64_t due(unsigned sheet, uint64_t today, uint64_t date)
{
    char group[40];
    uint8_t rows[3 * ROW];
    snprintf(group, sizeof group, "2 19-19 5001 %02d%02d%02d",
             (int)(date % 100), (int)(date / 100 % 100),
             (int)(date / 10000 % 100));
    const char *file = FRAME(sheet, .group = group);
    return peer_read((const uint8_t *)file, strlen(file), sheet, today, rows,
                     sizeof rows)
        .number;
}

/* Every day of the century by counting, and the sheets' limits from some. */
static void all_days(void)
{
    static const unsigned lengths[] = {31, 28, 31, 30, 31, 30,
                                       31, 31, 30, 31, 30, 31};
    static uint64_t days[36525];
    size_t count = 0;
    for (uint64_t year = 2000; year <= 2099; year++)
        for (uint64_t month = 1; month <= 12; month++) {
            uint64_t leap = month == 2 && year % 4 == 0;
            for (uint64_t day = 1; day <= lengths[month - 1] + leap; day++)
                days[count++] = year * 10000 + month * 100 + day;
        }
    CHECK("days of the century", count == 36525);
    for (size_t i = 1; i + 366 < count; i += 13) {
        CHECK("K: today", due(K, days[i], days[i]) == 0);
        CHECK("K: 364 ahead", due(K, days[i], days[i + 364]) == 0);
        CHECK("K: 365 ahead", due(K, days[i], days[i + 365]) == 11);
        CHECK("K: yesterday", due(K, days[i], days[i - 1]) == 11);
        CHECK("C: 365 ahead", due(C, days[i], days[i + 365]) == 0);
        CHECK("C: 366 ahead", due(C, days[i], days[i + 366]) == 11);
        CHECK("S: yesterday", due(S, days[i], days[i - 1]) == 11);
        CHECK("P: 365 ahead", due(P, days[i], days[i + 365]) == 0);
        CHECK("P: 366 ahead", due(P, days[i], days[i + 366]) == 11);
        CHECK("P: yesterday", due(P, days[i], days[i - 1]) == 0);
    }
}

static void edge_amounts_and_texts(void)
{
    uint64_t(*row)[WORDS] = accepted(
        "Edges: E 3500,00", E,
        FRAME(E, .group = "2 19-19 3500,00 020118",
              .item = "705 3500,00 42 03000558"), 3, 0);
    CHECK("Edges: 3500,00 is 350000", row[2][6] == 350000);
    refused("Edges: E ,50", E, FRAME(E, .item = "705 ,50 42 03000558"), 4, 4, 4);
    refused("Edges: E 3500,0", E, FRAME(E, .item = "705 3500,0 42 03000558"), 4,
            4, 4);
    row = accepted("Edges: K priority 7", K,
                   FRAME(K, .item = "705 5001 42 0781000558"), 3, 0);
    CHECK("Edges: priority 7", row[2][10] == 7 && row[2][5] == 8100 &&
                                   row[2][9] == 558);
    row = accepted("Edges: K priority digit 1", K,
                   FRAME(K, .item = "705 5001 42 0181000558"), 3, 1);
    CHECK("Edges: digit 1 means 5", row[2][10] == 5);
    const char *file =
        FRAME(C, .item = "705 5001 42 03000558 17 AV: NP:Jan");
    row = accepted("Edges: C AV: NP:Jan", C, file, 3, 0);
    CHECK("Edges: the name Jan", says(file, row[2], 19, "Jan"));
    for (size_t word = 11; word <= 18; word++)
        CHECK("Edges: an empty message", row[2][word] == 0);
    refused_bytes("Edges: empty file", K, TODAY, "", 0, 3, 1, 0);
    refused_bytes("Edges: empty file, no pointer", C, TODAY, NULL, 0, 3, 1, 0);
#define PART_36 "123456789012345678901234567890123456"
    refused("Edges: 36-byte part on K", K,
            FRAME(K, .item = "705 5001 42 03000558 17 AV:" PART_36), 14, 4, 24);
    file = FRAME(C, .item = "705 5001 42 03000558 17 AV:" PART_36);
    row = accepted("Edges: 36-byte part on C", C, file, 3, 1);
    CHECK("Edges: cut to 35",
          says(file, row[2], 11, "12345678901234567890123456789012345"));
}

/* Every number of reading once in a plain place, on every sheet it has. */
static void numbers_of_all_sheets(void)
{
    for (unsigned sheet = K; sheet <= P; sheet++) {
        accepted("no. 0", sheet, PLAIN(sheet), 3, 0);
        refused("no. 3: the wrong kind of line", sheet,
                FRAME(sheet, .file = "2 19-19 5001 020118"), 3, 2, 0);
        refused("no. 4: a field's bytes", sheet, FRAME(sheet, .item = "705 50x1"),
                4, 4, 4);
        refused("no. 5", sheet, FRAME(sheet, .group = "2 20-19 5001 020118"), 5, 3,
                2);
        refused("no. 6: zero", sheet, FRAME(sheet, .item = "705 0 42 03000558  "),
                6, 4, 4);
        refused("no. 7", sheet, FRAME(sheet, .file = "1 1505 000000 0300"), 7, 2,
                2);
        refused("no. 11", sheet, FRAME(sheet, .group = "2 19-19 5001 320118"), 11,
                3, 13);
        refused("no. 12", sheet, FRAME(sheet, .item = "705 5001 42 00000558  "), 12,
                4, 12);
        refused("no. 13", sheet, FRAME(sheet, .item = "705 5001 42 1003000558  "),
                13, 4, 12);
    }
}

static void numbers_1_and_2(void)
{
    static const uint64_t sheets[] = {0, 6, 7, UINT64_MAX, UINT64_C(1) << 32 | 1};
    for (size_t i = 0; i < 5; i++) {
        struct peer_answer a = peer_read(NULL, 0, sheets[i], 0, NULL, 0);
        CHECK("no. 1", a.number == 1 && a.line == 0 && a.byte == 0);
        CHECK("no. 1: the empty header", memcmp(a.header.name, "     ", 5) == 0);
    }
    static const uint64_t days[] = {0, 20180100, 20180132, 20180001, 20181301,
                                    20190229, 19991231, 21000101, 180101,
                                    UINT64_MAX, UINT64_C(1) << 32 | 20180101};
    for (size_t i = 0; i < sizeof days / sizeof *days; i++)
        refused_bytes("no. 2", C, days[i], "UHL1", 4, 2, 0, 0);
}

static void numbers_of_some_sheets(void)
{
    refused("no. 8 on K", K, FRAME(K, .file = "1 1501 000000 0300"), 8, 2, 14);
    refused("no. 8 on S", S, FRAME(S, .file = "1 1501 000000 8100"), 8, 2, 14);
    refused("no. 8 on E", E, FRAME(E, .file = "1 1501 000000 0800"), 8, 2, 14);
    refused("no. 8 on P", P, FRAME(P, .file = "1 1501 000000 0800"), 8, 2, 14);
    refused("no. 9: below the interval", K,
            FRAME(K, .first = "UHL1010118KLIENT TEST         1234567890005007",
                  .file = "1 1501 004999 8100"), 9, 2, 7);
    refused("no. 9: above the interval", K,
            FRAME(K, .first = "UHL1010118KLIENT TEST         1234567890005007",
                  .file = "1 1501 008000 8100"), 9, 2, 7);
    accepted("the interval binds three digits, not six", K,
             FRAME(K, .first = "UHL1010118KLIENT TEST         1234567890005005",
                   .file = "1 1501 005999 8100"), 3, 0);
    refused("no. 10 on K", K, FRAME(K, .group = "2 19-19 5002 020118"), 10, 3, 8);
    refused("no. 10 on S", S, FRAME(S, .group = "2 19-19 5002 020118"), 10, 3, 8);
    refused("no. 10 on P", P, FRAME(P, .group = "2 19-19 5002 020118"), 10, 3, 8);
    refused("no. 14 on K", K, FRAME(K, .item = "705 5001 42 03000558 17 led"), 14,
            4, 24);
    refused("no. 14 on S", S, FRAME(S, .item = "705 5001 42 03000558  a|b"), 14, 4,
            22);
    refused("no. 14 on C", C, FRAME(C, .item = "705 5001 42 03000558 a|b|c|d|e"),
            14, 4, 21);
    refused("no. 14 on E", E, FRAME(E, .item = "705 5001 42 03000558 17 av:led"),
            14, 4, 24);
    refused("no. 14 on P", P, FRAME(P, .item = "705 5001 42 03000558 17 led"), 14,
            4, 24);
}

/* K: the first three digits of an account file's number come once. */
static void repeated_numbers(void)
{
    char file[1000];
    snprintf(file, sizeof file, "%s%s", PLAIN(K),
             "1 1501 000001 8100\n2 19-19 5001 020118\n"
             "705 5001 42 03000558\n3 +\n5 +\n");
    refused("no. 9: repeated", K, file, 9, 7, 7);
    memcpy(strstr(file, "000001"), "001000", 6);
    accepted("other three digits", K, file, 6, 0);
    snprintf(file, sizeof file, "%s%s", PLAIN(C),
             strchr(PLAIN(C), '\n') + 1);
    accepted("C repeats as it likes", C, file, 6, 0);
    snprintf(file, sizeof file, "%s%s", PLAIN(P),
             strchr(PLAIN(P), '\n') + 1);
    accepted("P repeats as it likes", P, file, 6, 0);
}

static void warnings(void)
{
    accepted("warning: total on C", C,
             FRAME(C, .group = "2 19-19 5002 020118"), 3, 1);
    accepted("warning: total on E", E,
             FRAME(E, .group = "2 19-19 5000 020118"), 3, 1);
    accepted("warning: past day on C", C,
             FRAME(C, .group = "2 19-19 5001 311217"), 3, 1);
    accepted("warning: past day on P", P,
             FRAME(P, .group = "2 19-19 5001 311217"), 3, 1);
    accepted("warning: both", C, FRAME(C, .group = "2 19-19 1 311217"), 3, 2);
    accepted("warning: priority 2 on K", K,
             FRAME(K, .item = "705 5001 42 0281000558"), 3, 1);
    accepted("no warning: priority 0 on K", K,
             FRAME(K, .item = "705 5001 42 0081000558"), 3, 0);
    accepted("no warning: priority 3 on K", K,
             FRAME(K, .item = "705 5001 42 381000558"), 3, 0);
    accepted("warning: cut name on C", C,
             FRAME(C, .item = "705 5001 42 03000558 NP:" PART_36), 3, 1);
}

static void rows_and_header(void)
{
    const char *file = FRAME(
        K, .first = "UHL1311299JAN A \xc8 SPOL        0000000012007042",
        .file = "1 1501 012345 8100", .group = "2 5001 020118",
        .item = "19-19 500005-2267100237 5001 0 0981000308 77 AV:a||c ");
    uint64_t(*row)[WORDS] = accepted("rows on K", K, file, 3, 0);
    CHECK("account file", row[0][0] == 1 && row[0][1] == 1501 &&
                              row[0][2] == 12345);
    CHECK("group", row[1][0] == 2 && row[1][1] == 20180102 && row[1][2] == 0 &&
                       row[1][3] == 0);
    const uint64_t *i = row[2];
    CHECK("item's accounts", i[0] == 3 && i[1] == 19 && i[2] == 19 &&
                                 i[3] == 500005 && i[4] == 2267100237);
    CHECK("item's numbers", i[5] == 8100 && i[6] == 5001 && i[7] == 0 &&
                                i[8] == 77 && i[9] == 308 && i[10] == 9);
    CHECK("item's texts", says(file, i, 11, "a") && i[13] == 0 && i[14] == 0 &&
                              says(file, i, 15, "c ") && i[18] == 0 &&
                              i[20] == 0);
    const struct peer_header *h = &test_answer.header;
    CHECK("header", h->date == 20991231 && h->client == 12 && h->from == 7 &&
                        h->to == 42);
    CHECK("name", memcmp(h->name, "JAN A \xc8 SPOL        ", 20) == 0);
    accepted("collective", C, PLAIN(C), 3, 0);
    h = &test_answer.header;
    CHECK("C's header", h->date == 0 && h->client == 0 && h->from == 0 &&
                            h->to == 0 &&
                            memcmp(h->name, "                    ", 20) == 0);
    accepted("C's first line is not read", C,
             FRAME(C, .first = FIRST_58, .close = "3+", .end = "5+"), 3, 0);
    CHECK("C's header stays empty", test_answer.header.date == 0);
}

/* Top to bottom, left to right, and in one field 4 first. */
static void order(void)
{
    struct peer_answer a = peer_read(NULL, 0, 9, 9, NULL, 0);
    CHECK("1 before 2", a.number == 1);
    refused_bytes("2 before the file", K, 0, "x", 1, 2, 0, 0);
    refused("the upper line first", C,
            FRAME(C, .group = "2 19-19 5001 320118", .item = "706"), 11, 3, 13);
    refused("the left field first", K,
            FRAME(K, .file = "1 1502 x 0300"), 7, 2, 2);
    refused("9 before the bank's 4", K,
            FRAME(K, .first = "UHL1010118KLIENT TEST         1234567890005007",
                  .file = "1 1501 000000 x"), 9, 2, 7);
    refused("a number's 4 before its 9", K,
            FRAME(K, .first = "UHL1010118KLIENT TEST         1234567890005007",
                  .file = "1 1501 00000 8100"), 4, 2, 7);
    refused("6 before 12", C, FRAME(C, .item = "705 0 42 00000558"), 6, 4, 4);
    refused("12 before 13", C, FRAME(C, .item = "705 5001 42 1100000558"), 12,
            4, 12);
    refused("12 before the tail", S, FRAME(S, .item = "705 5001 42 00000558"),
            12, 4, 12);
    refused("payer before payee", C,
            FRAME(C, .group = "2 5001 020118", .item = "706 706 1 1 03000558"),
            5, 4, 0);
    refused("an item's payee in a single group", C,
            FRAME(C, .group = "2 5001 020118", .item = "705 706 1 1 03000558"),
            5, 4, 4);
    refused("variable symbol of 11 digits", C,
            FRAME(C, .item = "705 5001 12345678901 03000558"), 4, 4, 9);
    refused("no variable symbol", C, FRAME(C, .item = "705 5001  03000558"), 4,
            4, 9);
    struct peer_answer b = peer_read((const uint8_t *)"UHL1", 4, C, TODAY,
                                     NULL, 0);
    CHECK("16 comes last", b.number == 3);
}

void test_document(void)
{
    edge_accounts();
    joined_accounts();
    account_spellings();
    edge_days();
    all_days();
    edge_amounts_and_texts();
    numbers_of_all_sheets();
    numbers_1_and_2();
    numbers_of_some_sheets();
    repeated_numbers();
    warnings();
    rows_and_header();
    order();
}
