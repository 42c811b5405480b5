/* The warnings in the list of findings (request W-205): each kind on every sheet
   that has it, and their order. */
#include "check_findings.h"

#define ITEM "705 5001 42 03000558"
#define T35 "12345678901234567890123456789012345"

static void totals_warn(unsigned sheet)
{
    const struct found low = {0, 1010, 3, 8, 4, 21, 5001, 5001};
    const struct found zero = {0, 1010, 3, 8, 14, 21, 5001, 5001};
    warns("1010: lower", sheet, FRAME(sheet, .group = "2 19-19 5000 020118"), 1,
          &low);
    warns("1010: zeros", sheet,
          FRAME(sheet, .group = "2 19-19 00000000000000 020118"), 1, &zero);
    warns("1010: none", sheet, FRAME(sheet, .group = "2 19-19 05001 020118"), 0,
          NULL);
    /* Groups of their own, the second right, and sums that start anew. */
    const struct found two[] = {{0, 1010, 3, 8, 1, 21, 10002, 10002},
                                {0, 1010, 10, 8, 5, 21, 5001, 5001}};
    warns("1010: of three groups", sheet,
          FRAME(sheet, .group = "2 19-19 1 020118", .item = ITEM "\n" ITEM,
                .close = "3+\n2 19-19 5001 020118\n" ITEM
                         "\n3+\n2 19-19 10002 020118\n" ITEM "\n3 +"),
          2, two);
}

static void totals_of_e_warn(void)
{
    const struct found comma = {0, 1010, 3, 8, 5, 21, 5001, 5001};
    const struct found single = {0, 1010, 3, 3, 4, 21, 5001, 5001};
    warns("1010: a comma", E, FRAME(E, .group = "2 19-19 50,02 010100"), 1,
          &comma);
    warns("1010: commas that agree", E,
          FRAME(E, .group = "2 0 50,01 010100",
                .item = "19 705 49,00 0 03000000\n19 705 1,01 0 03000000"),
          0, NULL);
    warns("1010: empty payer", E,
          FRAME(E, .group = "2  5,00 010100", .item = "19 " ITEM), 1, &single);
}

static void days_warn(unsigned sheet)
{
    const struct found past = {0, 1011, 3, 13, 6, 22, TODAY, 0};
    const struct found eight = {0, 1011, 3, 7, 8, 22, TODAY, 0};
    const struct found later = {0, 1011, 3, 13, 6, 22, 20991231, 0};
    warns("1011: yesterday", sheet, FRAME(sheet, .group = "2 19-19 5001 311217"),
          1, &past);
    warns("1011: eight digits", sheet,
          FRAME(sheet, .group = "2 5001 20000101", .item = "19 " ITEM), 1,
          &eight);
    warns("1011: not today", sheet, FRAME(sheet, .group = "2 19-19 5001 010118"),
          0, NULL);
    warns_on("1011: another today", sheet, 20991231, PLAIN(sheet), 1, &later);
    const struct found behind = {0, 1011, 8, 13, 6, 22, TODAY, 0};
    warns("1011: not of a collection", sheet,
          FRAME(sheet, .file = "1 1502 000000 0300",
                .group = "2 19-19 5001 010118",
                .end = "5 +\n1 1501 000000 0300\n2 19-19 5001 311217\n" ITEM
                       "\n3 +\n5 +"),
          1, &behind);
}

/* A part of 36 bytes, of 35, and a name. */
#define LONG T35 "6"

static void cuts_warn(void)
{
    const struct found first = {0, 1012, 4, 27, 36, 37, 0, 35};
    const struct found bare = {0, 1012, 4, 21, 36, 37, 0, 35};
    const struct found second = {0, 1012, 4, 30, 76, 38, 0, 35};
    const struct found third = {0, 1012, 4, 29, 36, 39, 0, 35};
    const struct found fourth = {0, 1012, 4, 27, 36, 40, 0, 35};
    warns("1012: behind AV:", C, FRAME(C, .item = ITEM " 17 AV:" LONG), 1,
          &first);
    warns("1012: at the text's start", C, FRAME(C, .item = ITEM " " LONG "a"),
          1, &(struct found){0, 1012, 4, 21, 37, 37, 0, 35});
    warns("1012: before the name", C, FRAME(C, .item = ITEM " " LONG " NP:x"),
          1, &bare);
    warns("1012: part 2, over 60 bytes", C,
          FRAME(C, .item = ITEM " 17 AV:aa|" T35 T35 "123456|b"), 1, &second);
    warns("1012: part 3", C, FRAME(C, .item = ITEM " 17 AV:||" LONG "|"), 1,
          &third);
    warns("1012: part 4", C, FRAME(C, .item = ITEM " 17 |||" LONG), 1, &fourth);
    warns("1012: 35 bytes each", C,
          FRAME(C, .item = ITEM " " T35 "|" T35 "|" T35 "|" T35 " NP:" T35), 0,
          NULL);
    const struct found all[] = {
        {0, 1012, 4, 27, 36, 37, 0, 35},  {0, 1012, 4, 64, 37, 38, 0, 35},
        {0, 1012, 4, 102, 38, 39, 0, 35}, {0, 1012, 4, 141, 39, 40, 0, 35},
        {0, 1013, 4, 184, 77, 41, 0, 35},
    };
    warns("1012 and 1013: all five", C,
          FRAME(C, .item = ITEM " 17 AV:" LONG "|" LONG "7|" LONG "78|" LONG
                                "789 NP:" LONG " NP:|" LONG),
          5, all);
}

static void names_warn(void)
{
    const struct found alone = {0, 1013, 4, 24, 36, 41, 0, 35};
    const struct found marked = {0, 1013, 4, 28, 37, 41, 0, 35};
    const struct found part = {0, 1012, 4, 27, 39, 37, 0, 35};
    warns("1013: NP: at the start", C, FRAME(C, .item = ITEM " NP:" LONG), 1,
          &alone);
    warns("1013: behind AV:", C, FRAME(C, .item = ITEM " AV: NP:" LONG "7"), 1,
          &marked);
    warns("1012: AV:NP: is a part", C,
          FRAME(C, .item = ITEM " 17 AV:NP:" LONG), 1, &part);
    warns("1013: 35 bytes", C, FRAME(C, .item = ITEM " NP:" T35), 0, NULL);
    warns("1013: an empty name", C, FRAME(C, .item = ITEM " x NP:"), 0, NULL);
}

static void priorities_warn(void)
{
    const struct found one = {0, 1014, 4, 12, 10, 34, 1, 5};
    const struct found two = {0, 1014, 4, 15, 9, 34, 2, 5};
    warns("1014: 1", K, FRAME(K, .item = "705 5001 42 0181000558 17"), 1, &one);
    warns("1014: 2 in nine digits", K,
          FRAME(K, .group = "2 5001 020118",
                .item = "19 705 5001 42 281000558"),
          1, &two);
    warns("1014: 0", K, FRAME(K, .item = "705 5001 42 0081000558"), 0, NULL);
    warns("1014: 3", K, FRAME(K, .item = "705 5001 42 381000558"), 0, NULL);
    const struct found both[] = {{0, 1014, 4, 12, 9, 34, 2, 5},
                                 {0, 1014, 6, 12, 10, 34, 1, 5}};
    warns("1014: two of three", K,
          FRAME(K, .group = "2 19-19 15003 020118",
                .item = "705 5001 42 200010000 1 AV:x\n" ITEM
                        "\n705 5001 42 0100010000"),
          2, both);
}

/* By their places: a total before its group's day, both before the items',
   although the total is known last. */
static void order_of_warnings(void)
{
    const struct found c[] = {
        {0, 1010, 3, 2, 1, 21, 10002, 10002}, {0, 1011, 3, 4, 6, 22, TODAY, 0},
        {0, 1012, 4, 30, 36, 38, 0, 35},      {0, 1013, 4, 70, 36, 41, 0, 35},
        {0, 1012, 5, 24, 40, 37, 0, 35},      {0, 1010, 7, 8, 4, 21, 5001, 5001},
        {0, 1013, 8, 24, 36, 41, 0, 35},      {0, 1011, 12, 13, 6, 22, TODAY, 0},
    };
    warns("order: C", C,
          FRAME(C, .group = "2 1 311217",
                .item = "19 " ITEM " AV:aa|" LONG " NP:" LONG "\n19 " ITEM
                        " " LONG "7890"
                        "\n3+\n2 19-19 5002 010118\n" ITEM " NP:" LONG,
                .end = "5 +\n1 1503 000000 0800\n2 19-19 5001 010100\n" ITEM
                       "\n3 +\n5+"),
          8, c);
    warns("order: P", P,
          FRAME(P, .group = "2 19-19 5001 311217",
                .close = "3 +\n2 19-19 5001 301217\n" ITEM "\n3 +"),
          2,
          (const struct found[]){{0, 1011, 3, 13, 6, 22, TODAY, 0},
                                 {0, 1011, 6, 13, 6, 22, TODAY, 0}});
    warns("no warnings of S", S, PLAIN(S), 0, NULL);
}

/* Lines ended by CR LF and CR, and a last one without its end. */
static void line_ends_between(void)
{
    static const char file[] = "UHL1\r\n1 1501 000000 0300\r"
                               "2 19-19 1 311217\r\n"
                               "705 2 0 03000000 AV:" LONG "\r3+\r\n5+";
    const struct found want[] = {{0, 1010, 3, 8, 1, 21, 2, 2},
                                 {0, 1011, 3, 10, 6, 22, TODAY, 0},
                                 {0, 1012, 4, 20, 36, 37, 0, 35}};
    warns("line ends", C, file, 3, want);
}

/* Many findings: one in each item, listed in one call. */
static void many_warnings(void)
{
    enum { ITEMS = 20000 };
    static char text[ITEMS * 22 + 200];
    char *at = text + sprintf(text, "%s\n1 1501 000000 8100\n"
                                    "2 19-19 %d 020118\n",
                              FIRST_58, ITEMS);
    for (int i = 0; i < ITEMS; i++)
        at += sprintf(at, "705 1 0 0103000000 1\n");
    sprintf(at, "3 +\n5 +");
    size_t count = find_all("many", K, TODAY, text, strlen(text));
    bool right = count == ITEMS && test_list.refused == 0;
    for (size_t i = 0; right && i < count; i++) {
        const struct found want = {0, 1014, i + 4, 99 + 21 * i + 8, 10, 34, 1,
                                   5};
        right = memcmp(&test_found[i], &want, sizeof want) == 0;
    }
    CHECK("many: each in its place", right);
}

void test_warnings(void)
{
    totals_warn(C);
    totals_warn(E);
    totals_of_e_warn();
    days_warn(C);
    days_warn(P);
    cuts_warn();
    names_warn();
    priorities_warn();
    order_of_warnings();
    line_ends_between();
    many_warnings();
}
