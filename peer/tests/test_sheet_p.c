/* Sheet 5, letter P (request W-201), by the numbers of its readings and by its
   cases.  What it shares with other sheets is tested beside them. */
#include "check.h"

#define ITEM "705 5001 42 03000558"
#define T35 "12345678901234567890123456789012345"
#define CRLF "\r\n"

static struct batch_in b;

/* 1, in what no case below asks. */
static void record_1(void)
{
    accepted("1: kind 1501", P, PLAIN(P), 3, 0);
    accepted("1: kind 1502", P, FRAME(P, .file = "1 1502 000000 0300"), 3, 0);
    refused("1: kind 1504", P, FRAME(P, .file = "1 1504 000000 0300"), 7, 2, 2);
    uint64_t(*row)[WORDS] = accepted(
        "1: joined accounts", P,
        FRAME(P, .group = "2 190000000019 5001 020118",
              .item = "0000190000000019 5001 42 03000558"), 3, 0);
    CHECK("1: joined accounts", row[1][2] == 19 && row[1][3] == 19 &&
                                    row[2][3] == 19 && row[2][4] == 19);
    refused("1: a base of one digit is spelled right", P,
            FRAME(P, .item = "9 5001 42 03000558"), 5, 4, 0);
    row = accepted("1: fewer than three spaces, no payer", P,
                   FRAME(P, .group = "2 5001 020118", .item = "19 " ITEM), 3,
                   0);
    CHECK("1: single", row[1][2] == 0 && row[1][3] == 0 && row[2][2] == 19);
    refused("1: an empty payer's field", P,
            FRAME(P, .group = "2  5001 020118", .item = "19 " ITEM), 4, 3, 2);
    row = accepted("1: 14 digits", P,
                   FRAME(P, .group = "2 19-19 99999999999999 020118",
                         .item = "705 99999999999999 42 03000558"), 3, 0);
    CHECK("1: 14 digits", row[2][6] == 99999999999999);
    refused("1: no comma", P, FRAME(P, .item = "705 50,01 42 03000558"), 4, 4,
            4);
    refused("1: no comma in a total", P,
            FRAME(P, .group = "2 19-19 50,01 020118"), 4, 3, 8);
    refused("1: no priority", P, FRAME(P, .item = "705 5001 42 0703000558"), 13,
            4, 12);
    row = accepted("1: zeros for a priority", P,
                   FRAME(P, .item = "705 5001 42 0003000558"), 3, 0);
    CHECK("1: priority 5", row[2][10] == 5);
    refused("1: no bare text", P, FRAME(P, .item = ITEM " 12345678901"), 4, 4,
            21);
}

/* 1, 11: S alone has a limit of items for the whole file. */
static void many_items_1(void)
{
    static char items[1001 * 20];
    char *at = items;
    for (int i = 0; i < 1001; i++)
        at += sprintf(at, "%s705 1 0 03000000", i > 0 ? "\n" : "");
    static char file[sizeof items + 200];
    snprintf(file, sizeof file,
             FIRST_58 "\n1 1501 000000 0300\n2 19-19 1001 020118\n%s\n"
                      "3 +\n5 +\n", items);
    accepted("1: 1,001 items", P, file, 1003, 0);
}

static void first_line_2(void)
{
    accepted("2: the header is read", P, PLAIN(P), 3, 0);
    const struct peer_header *h = &test_answer.header;
    CHECK("2: the header is returned",
          h->date == 20180101 && h->client == 1234567890 && h->from == 0 &&
              h->to == 999 &&
              memcmp(h->name, "KLIENT TEST         ", 20) == 0);
    accepted("2: start above end, a number outside", P,
             FRAME(P, .first = "UHL1010118KLIENT TEST         "
                               "1234567890007006000000000000"), 3, 0);
    CHECK("2: start above end",
          test_answer.header.from == 7 && test_answer.header.to == 6);
    refused("2: 46 bytes", P, FRAME(P, .first = FIRST_46), 4, 1, 46);
    refused("2: 52 bytes", P, FRAME(P, .first = FIRST_46 "000000"), 4, 1, 46);
    refused("2: UHL1 alone", P, FRAME(P, .first = "UHL1"), 4, 1, 4);
    accepted("2: numbers repeat", P,
             FRAME(P, .end = "5 +\n1 1502 000000 0300\n2 705 7 020118\n"
                             "705 7 0 03000000\n3 +\n5 +"), 6, 0);
    batch_start(&b);
    b.client = 10000000000;
    not_written("2: writing looks at the header", &b, P, 20, 0, 3);
}

static void dates_3(void)
{
    uint64_t(*row)[WORDS] = accepted(
        "3: six digits", P, FRAME(P, .group = "2 19-19 5001 311218"), 3, 0);
    CHECK("3: six digits", row[1][1] == 20181231);
    row = accepted("3: eight digits", P,
                   FRAME(P, .group = "2 19-19 5001 20181231"), 3, 0);
    CHECK("3: eight digits", row[1][1] == 20181231);
    refused("3: six by place in the first line", P,
            FRAME(P, .first = "UHL120180101KLIENT TEST       "
                              "1234567890000999000000000000"), 11, 1, 4);
}

static void tail_4(void)
{
    refused("4: a text without a symbol", P, FRAME(P, .item = ITEM " AV:x"), 4,
            4, 21);
    const char *file =
        FRAME(P, .item = ITEM " 17 AV:" T35 "|" T35 "|" T35 "|" T35);
    uint64_t(*row)[WORDS] =
        accepted("4: four parts of 35, over 143 bytes", P, file, 3, 0);
    for (size_t word = 11; word <= 17; word += 2)
        CHECK("4: four parts of 35", says(file, row[2], word, T35));
    refused("4: five parts", P, FRAME(P, .item = ITEM " 17 AV:a|b|c|d|e"), 14,
            4, 24);
    refused("4: 36 bytes", P, FRAME(P, .item = ITEM " 17 AV:" T35 "6"), 14, 4,
            24);
}

/* Each of both bytes in each part, at its start, inside and at its end. */
static void marks_5(void)
{
    static const char *const parts[] = {"%c", "%cb", "a%cb", "a%c"};
    static const char *const places[] = {"%s", "a|%s|c|d", "||%s", "|||%s"};
    char part[10], text[30], item[80];
    for (int i = 0; i < 4 * 4 * 2; i++) {
        snprintf(part, sizeof part, parts[i / 2 % 4], i % 2 == 0 ? '#' : '~');
        snprintf(text, sizeof text, places[i / 8], part);
        snprintf(item, sizeof item, ITEM " 17 AV:%s", text);
        refused("5: # and ~ in a part", P, FRAME(P, .item = item), 14, 4, 24);
        accepted("5: not on K", K, FRAME(K, .item = item), 3, 0);
        accepted("5: not on C", C, FRAME(C, .item = item), 3, 0);
        accepted("5: not on E", E, FRAME(E, .item = item), 3, 0);
        snprintf(item, sizeof item, ITEM " 17 AV:%s\x1f", text);
        refused("5: a byte that is no text byte comes first", P,
                FRAME(P, .item = item), 4, 4, 24);
    }
    refused("5: behind 35 bytes", P, FRAME(P, .item = ITEM " 17 AV:" T35 "#"),
            14, 4, 24);
    accepted("5: the bytes beside them", P,
             FRAME(P, .item = ITEM " 17 AV:\"$|}\x80"), 3, 0);
    accepted("5: in the name and the rest", P,
             FRAME(P, .first = "UHL1010118#KLIENT~TEST#       "
                               "1234567890000999#~#~#~#~#~#~"), 3, 0);
    CHECK("5: in the name",
          memcmp(test_answer.header.name, "#KLIENT~TEST#       ", 20) == 0);
}

static void no_names_6(void)
{
    const char *file = FRAME(P, .item = ITEM " 17 AV: NP:Jan|NP:b");
    uint64_t(*row)[WORDS] = accepted("6: NP: in parts", P, file, 3, 0);
    CHECK("6: NP: in parts", says(file, row[2], 11, " NP:Jan") &&
                                 says(file, row[2], 13, "NP:b") &&
                                 row[2][19] == 0 && row[2][20] == 0);
    refused("6: NP: for AV:", P, FRAME(P, .item = ITEM " 17 NP:Jan"), 14, 4,
            24);
}

static void writing_marks_7(void)
{
    static const char *const texts[] = {"#", "~", "a#", "~b", T35};
    for (size_t word = 11; word <= 17; word += 2)
        for (size_t i = 0; i < 5; i++) {
            batch_start(&b);
            batch_text(&b, b.words[2], word, texts[i]);
            if (i == 4)
                b.texts[34] = '#';
            not_written("7: # or ~ in a part", &b, P, 21, 3, word);
            CHECK("7: carried on K, C and E",
                  batch_write(&b, K, TODAY, 4096).number == 0 &&
                      batch_write(&b, C, TODAY, 4096).number == 0 &&
                      batch_write(&b, E, TODAY, 4096).number == 0);
        }
    batch_start(&b);
    batch_text(&b, b.words[2], 13, "~");
    batch_text(&b, b.words[2], 17, "#");
    batch_text(&b, b.words[2], 19, "Jan");
    not_written("7: the first such part", &b, P, 21, 3, 13);
    b.words[2][10] = 4;
    not_written("7: the priority before it", &b, P, 21, 3, 10);
    b.words[2][18] = 36;
    not_written("7: 20 before all of it", &b, P, 20, 3, 17);
}

static void writing_7(void)
{
    batch_start(&b);
    batch_text(&b, b.words[2], 19, "Jan");
    not_written("7: a name", &b, P, 21, 3, 19);
    batch_start(&b);
    batch_text(&b, b.words[2], 19, "#");
    not_written("7: a name with #", &b, P, 21, 3, 19);
    for (uint64_t priority = 3; priority <= 9; priority++) {
        batch_start(&b);
        b.words[2][10] = priority;
        if (priority != 5)
            not_written("7: a priority", &b, P, 21, 3, 10);
        else
            CHECK("7: 5", batch_write(&b, P, TODAY, 4096).number == 0);
    }
    for (uint64_t kind = 1501; kind <= 1504; kind++) {
        batch_start(&b);
        b.words[0][1] = kind;
        if (kind > 1502)
            not_written("7: a kind", &b, P, 21, 1, 1);
        else
            CHECK("7: a kind", batch_write(&b, P, TODAY, 4096).number == 0);
    }
    batch_start(&b);
    b.words[1][1] = 20190101;
    CHECK("7: 365 days", batch_write(&b, P, TODAY, 4096).number == 0);
    b.words[1][1] = 20190102;
    not_written("7: 366 days", &b, P, 21, 2, 1);
    b.words[1][1] = 20171231;
    CHECK("7: a past day", batch_write(&b, P, TODAY, 4096).number == 0);
    for (size_t word = 11; word <= 17; word += 2) {
        batch_start(&b);
        batch_text(&b, b.words[2], word, "a NP:b");
        CHECK("7: the name's mark",
              batch_write(&b, P, TODAY, 4096).number == 0);
        not_written("7: the name's mark on C", &b, C, 21, 3, word);
    }
}

static void canonical_8(void)
{
    static const char want[] =
        "UHL1280299#~IENT TEST         0000000007024023000000000000" CRLF
        "1 1501 000999 0300" CRLF
        "2 500005-2267100237 99999999999999 010119" CRLF
        "174-1999738514 99999999999998 9999999999 00010007 9999999999"
        " AV:a NP:b|||" T35 CRLF
        "705 1 0 03000000 0 AV:|x" CRLF
        "3 +" CRLF
        "2 5001 311217" CRLF
        "19-19 " ITEM " 17" CRLF
        "3 +" CRLF
        "5 +" CRLF;
    batch_start(&b);
    b.date = 20990228;
    memcpy(b.name, "#~", 2);
    b.client = 7;
    b.from = 24;
    b.to = 23;
    b.rows = 0;
    batch_file(&b, 1501, 999);
    batch_group(&b, 20190101, 500005, 2267100237);
    uint64_t *item = batch_item(&b);
    item[3] = 174;
    item[4] = 1999738514;
    item[5] = 1;
    item[6] = 99999999999998;
    item[7] = item[8] = 9999999999;
    item[9] = 7;
    batch_text(&b, item, 11, "a NP:b");
    batch_text(&b, item, 17, T35);
    item = batch_item(&b);
    item[6] = 1;
    item[7] = item[9] = 0;
    batch_text(&b, item, 13, "x");
    batch_group(&b, 20171231, 0, 0);
    item = batch_item(&b);
    item[1] = item[2] = 19;
    item[8] = 17;
    written("8: canonical", &b, P, want);
    accepted("8: it is read", P, want, 6, 1);
    accepted("8: it is a file of C", C, want, 6, 2);
}

/* 9, 10: which texts are meant. */
static void moving_9(void)
{
    const char *file = FRAME(P, .item = ITEM " 17 AV:a NP:b");
    uint64_t(*row)[WORDS] = accepted("9: the mark on P", P, file, 3, 0);
    CHECK("9: a part on P",
          says(file, row[2], 11, "a NP:b") && row[2][20] == 0);
    row = accepted("9: the mark on C", C, file, 3, 0);
    CHECK("9: part and name on C",
          says(file, row[2], 11, "a") && says(file, row[2], 19, "b"));
    file = FRAME(P, .first = "UHL1010118KLIENT NP:TEST      "
                             "1234567890000999 NP: NP: NP:",
                 .item = ITEM " 17 AV:a|NP:b| NP|:c");
    uint64_t on_p[3][WORDS];
    memcpy(on_p, accepted("9: none in a part, on P", P, file, 3, 0),
           sizeof on_p);
    row = accepted("9: none in a part, on C", C, file, 3, 0);
    CHECK("9: the same rows", memcmp(on_p, row, sizeof on_p) == 0);
    CHECK("10: but not the header", test_answer.header.date == 0);
}

static void cases(void)
{
    const char *file = FRAME(P, .item = ITEM " 17 AV:a NP:b");
    uint64_t(*row)[WORDS] = accepted("Cases: AV:a NP:b", P, file, 3, 0);
    CHECK("Cases: one part", says(file, row[2], 11, "a NP:b") &&
                                 row[2][14] == 0 && row[2][20] == 0);
    refused("Cases: AV:#", P, FRAME(P, .item = ITEM " 17 AV:#"), 14, 4, 24);
    refused("Cases: AV:a|b~", P, FRAME(P, .item = ITEM " 17 AV:a|b~"), 14, 4,
            24);
    refused("Cases: x", P, FRAME(P, .item = ITEM " 17 x"), 14, 4, 24);
    refused("Cases: 36 bytes", P, FRAME(P, .item = ITEM " 17 AV:" T35 "6"), 14,
            4, 24);
    refused("Cases: AV:# and byte 31", P,
            FRAME(P, .item = ITEM " 17 AV:#\x1f"), 4, 4, 24);
    refused("Cases: AV:x without a symbol", P, FRAME(P, .item = ITEM " AV:x"),
            4, 4, 21);
    refused("Cases: first line of 46", P, FRAME(P, .first = FIRST_46), 4, 1,
            46);
    refused("Cases: 3+", P, FRAME(P, .close = "3+"), 4, 5, 1);
    refused("Cases: 5+", P, FRAME(P, .end = "5+"), 4, 6, 1);
    refused("Cases: total 5000", P, FRAME(P, .group = "2 19-19 5000 020118"),
            10, 3, 8);
    refused("Cases: 0 as payer", P, FRAME(P, .group = "2 0 5001 020118"), 5, 3,
            2);
    refused("Cases: 17 zeros as payer", P,
            FRAME(P, .group = "2 00000000000000000 5001 020118"), 4, 3, 2);
    accepted("Cases: 20171231", P, FRAME(P, .group = "2 19-19 5001 20171231"),
             3, 1);
    accepted("Cases: 010119", P, FRAME(P, .group = "2 19-19 5001 010119"), 3,
             0);
    refused("Cases: 020119", P, FRAME(P, .group = "2 19-19 5001 020119"), 11, 3,
            13);
    refused("Cases: BANK 0800", P, FRAME(P, .file = "1 1501 000000 0800"), 8, 2,
            14);
    refused("Cases: kind 1503", P, FRAME(P, .file = "1 1503 000000 0300"), 7, 2,
            2);
}

void test_sheet_p(void)
{
    record_1();
    many_items_1();
    first_line_2();
    dates_3();
    tail_4();
    marks_5();
    no_names_6();
    writing_marks_7();
    writing_7();
    canonical_8();
    moving_9();
    cases();
}
