/* Writing: readings 26 to 30, the numbers 1, 2, 16, 20 and 21, and the
   canonical spelling.  The frame's batch has rows 1 to 3: account file, group,
   item. */
#include "check.h"

#define T35 "12345678901234567890123456789012345"
#define CRLF "\r\n"

static struct batch_in b;

/* One word of the frame's batch replaced; 20 at that field, on each sheet. */
static void wrong_word(const char *what, size_t row, size_t word,
                       uint64_t value, uint64_t field)
{
    for (uint64_t sheet = K; sheet <= P; sheet++) {
        batch_start(&b);
        b.words[row - 1][word] = value;
        not_written(what, &b, sheet, 20, row, field);
    }
}

static void fields_26(void)
{
    static const uint64_t bad_days[] = {0, 20180229, 19991231, 21000101,
                                        UINT64_MAX};
    wrong_word("26: kind of row 0", 1, 0, 0, 0);
    wrong_word("26: kind of row 4", 3, 0, 4, 0);
    wrong_word("26: kind of row, huge", 3, 0, UINT64_C(1) << 32 | 3, 0);
    wrong_word("26: kind 1500", 1, 1, 1500, 1);
    wrong_word("26: kind 1505", 1, 1, 1505, 1);
    wrong_word("26: number", 1, 2, 1000000, 2);
    for (size_t i = 0; i < 5; i++)
        wrong_word("26: due date", 2, 1, bad_days[i], 1);
    wrong_word("26: payer's prefix", 2, 2, 18, 2);
    wrong_word("26: payer's prefix, too long", 2, 2, 1000003, 2);
    wrong_word("26: payer's base", 2, 3, 18, 2);
    wrong_word("26: payer's base missing", 2, 3, 0, 2);
    wrong_word("26: item's payer in a collective group", 3, 2, 19, 1);
    wrong_word("26: item's payer, prefix alone", 3, 1, 19, 1);
    wrong_word("26: payee's prefix", 3, 3, 18, 3);
    wrong_word("26: payee's base", 3, 4, 706, 3);
    wrong_word("26: payee missing", 3, 4, 0, 3);
    wrong_word("26: payee's base, 11 digits", 3, 4, 10000000010, 3);
    wrong_word("26: payee's base, huge", 3, 4, UINT64_MAX, 3);
    wrong_word("26: bank 0", 3, 5, 0, 5);
    wrong_word("26: bank 10000", 3, 5, 10000, 5);
    wrong_word("26: amount 0", 3, 6, 0, 6);
    wrong_word("26: amount 10^14", 3, 6, 100000000000000, 6);
    wrong_word("26: amount, huge", 3, 6, UINT64_MAX, 6);
    wrong_word("26: variable symbol", 3, 7, 10000000000, 7);
    wrong_word("26: specific symbol", 3, 8, 10000000000, 8);
    wrong_word("26: constant symbol", 3, 9, 10000, 9);
    wrong_word("26: priority 2", 3, 10, 2, 10);
    wrong_word("26: priority 10", 3, 10, 10, 10);
    for (size_t word = 11; word <= 19; word += 2) {
        wrong_word("26: text outside", 3, word + 1, 1, word);
        wrong_word("26: text of 36", 3, word + 1, 36, word);
        wrong_word("26: text, huge", 3, word + 1, UINT64_MAX, word);
    }
    wrong_word("26: reference", 3, 21, UINT64_C(1) << 32, 21);
}

static void header_26(void)
{
    static const unsigned sheets[] = {K, S, E, P};
    for (int i = 0; i < 4; i++) {
        uint64_t sheet = sheets[i];
        batch_start(&b);
        b.date = 20190229;
        not_written("26: header's date", &b, sheet, 20, 0, 1);
        batch_start(&b);
        b.name[19] = 31;
        not_written("26: header's name", &b, sheet, 20, 0, 2);
        b.name[19] = 127;
        not_written("26: header's name, 127", &b, sheet, 20, 0, 2);
        static const size_t lengths[] = {0, 1, 19};
        for (size_t l = 0; l < 3; l++) {
            batch_start(&b);
            b.name_len = lengths[l];
            not_written("26: header's name's length", &b, sheet, 20, 0, 2);
        }
        batch_start(&b);
        b.client = 10000000000;
        not_written("26: client number", &b, sheet, 20, 0, 3);
        batch_start(&b);
        b.from = 1000;
        not_written("26: interval start", &b, sheet, 20, 0, 4);
        batch_start(&b);
        b.to = 1000;
        not_written("26: interval end", &b, sheet, 20, 0, 5);
        b.from = b.client = b.date = UINT64_MAX;
        b.name_len = 0;
        not_written("26: the first field of the header", &b, sheet, 20, 0, 1);
        batch_start(&b);
        b.words[0][0] = 9;
        b.to = 1000;
        not_written("26: the header before the rows", &b, sheet, 20, 0, 5);
    }
}

static void header_names_26(void)
{
    uint8_t long_name[21];
    memset(long_name, 'a', 21);
    struct peer_written w =
        peer_write(NULL, 0, NULL, 0, 20180101, long_name, 21, 0, 0, 0, K, TODAY,
                   NULL, 0);
    CHECK("26: a name of 21", w.number == 20 && w.row == 0 && w.field == 2);
    batch_start(&b);
    memcpy(b.name, "\xff\x80 |~AV: NP:  \xc8 xyzw", 20);
    batch_write(&b, E, TODAY, 4096);
    CHECK("26: any text bytes in the name",
          memcmp(test_out + 10, "\xff\x80 |~AV: NP:  \xc8 xyzw", 20) == 0);
}

static void order_of_fields_26(void)
{
    static const size_t words[] = {4,  5,  6,  7,  8,  9, 10,
                                   12, 14, 16, 18, 20, 21};
    static const size_t fields[] = {3,  5,  6,  7,  8,  9, 10,
                                    11, 13, 15, 17, 19, 21};
    batch_start(&b);
    for (size_t i = 13; i-- > 0;) {
        b.words[2][words[i]] = UINT64_MAX;
        not_written("26: the first wrong field of an item", &b, K, 20, 3,
                    fields[i]);
    }
    b.words[2][2] = 1;
    not_written("26: the payer first", &b, K, 20, 3, 1);
    b.words[1][3] = 1;
    not_written("26: a group's payer", &b, K, 20, 2, 2);
    b.words[1][1] = 1;
    not_written("26: a group's date first", &b, K, 20, 2, 1);
    b.words[0][2] = UINT64_MAX;
    not_written("26: an account file's number", &b, K, 20, 1, 2);
    b.words[0][1] = UINT64_MAX;
    not_written("26: an account file's kind first", &b, K, 20, 1, 1);
}

static void missing_rows_27(void)
{
    for (uint64_t sheet = K; sheet <= P; sheet++) {
        batch_start(&b);
        for (size_t rows = 0; rows < 3; rows++) {
            b.rows = rows;
            not_written("27: a missing row", &b, sheet, 20, rows + 1, 0);
        }
        batch_start(&b);
        b.left_over = 191;
        not_written("27: bytes left over", &b, sheet, 20, 4, 0);
        b.rows = 2;
        b.left_over = 1;
        not_written("27: bytes left over for an item", &b, sheet, 20, 3, 0);
        batch_start(&b);
        batch_file(&b, 1501, 1000);
        not_written("27: a last account file without groups", &b, sheet, 20, 5,
                    0);
        batch_file(&b, 1501, 2000);
        not_written("27: an account file without groups", &b, sheet, 20, 5, 0);
        batch_start(&b);
        batch_group(&b, 20180102, 0, 0);
        batch_group(&b, 20180102, 0, 0);
        not_written("27: a group without items", &b, sheet, 20, 5, 0);
        batch_start(&b);
        b.rows = 1;
        batch_item(&b);
        not_written("27: an item without a group", &b, sheet, 20, 2, 0);
        batch_start(&b);
        b.words[2][0] = 9;
        b.words[2][6] = 0;
        not_written("27: the row's kind before its fields", &b, sheet, 20, 3,
                    0);
    }
}

static void payers_27(void)
{
    for (uint64_t sheet = K; sheet <= P; sheet++) {
        batch_start(&b);
        b.words[1][2] = b.words[1][3] = 0;
        not_written("27: no payer in a single group", &b, sheet, 20, 3, 1);
        b.words[2][2] = 706;
        not_written("27: a wrong payer in a single group", &b, sheet, 20, 3, 1);
    }
}

static void sums_27(void)
{
    batch_start(&b);
    b.words[2][6] = 99999999999999;
    uint64_t *item = batch_item(&b);
    item[6] = 1;
    item[7] = UINT64_MAX;
    not_written("27: the sum passes, before later fields", &b, K, 20, 4, 6);
    item[5] = 0;
    not_written("27: the sum passes, behind earlier fields", &b, K, 20, 4, 5);
    item[5] = 300;
    item[7] = 0;
    for (uint64_t sheet = K; sheet <= P; sheet++)
        not_written("27: the sum passes", &b, sheet, 20, 4, 6);
    b.rows = 3;
    batch_group(&b, 20180102, 19, 19);
    batch_item(&b)[6] = 99999999999999;
    CHECK("27: each group has its own sum",
          batch_write(&b, C, TODAY, 4096).number == 0);
}

/* Rows in bytes without the small room of a batch. */
static uint8_t *many_rows(size_t files, size_t items, size_t *len)
{
    *len = files * (2 + items) * ROW;
    uint8_t *rows = calloc(*len, 1), *row = rows;
    if (rows == NULL)
        exit(2);
    for (size_t f = 0; f < files; f++) {
        uint64_t number = f % 1000 * 1000;
        row[0] = 1;
        row[8] = (uint8_t)1501;
        row[9] = 1501 >> 8;
        for (int i = 0; i < 3; i++)
            row[16 + i] = (uint8_t)(number >> 8 * i);
        row += ROW;
        row[0] = 2;
        for (int i = 0; i < 4; i++)
            row[8 + i] = (uint8_t)(UINT64_C(20180102) >> 8 * i);
        row[24] = 19;
        row += ROW;
        for (size_t i = 0; i < items; i++, row += ROW) {
            row[0] = 3;
            row[32] = 19;
            row[40] = 1;
            row[48] = 1;
            row[80] = 5;
        }
    }
    return rows;
}

/* With one word all ones, unless its row is 0. */
static struct peer_written write_spoiled(size_t files, size_t items,
                                         uint64_t sheet, size_t spoiled,
                                         size_t word)
{
    static const uint8_t name[] = "KLIENT TEST         ";
    size_t len;
    uint8_t *rows = many_rows(files, items, &len);
    if (spoiled > 0)
        memset(rows + (spoiled - 1) * ROW + 8 * word, 0xff, 8);
    struct peer_written w =
        peer_write(rows, len, NULL, 0, 20180101, name, 20, 0, 0, 999, sheet,
                   TODAY, NULL, 0);
    free(rows);
    return w;
}

/* The word is an item's bank. */
static struct peer_written write_many(size_t files, size_t items,
                                      uint64_t sheet, size_t spoiled)
{
    return write_spoiled(files, items, sheet, spoiled, 5);
}

static void too_many_27(void)
{
    struct peer_written w = write_many(1, 99999, C, 0);
    /* `19 1 0 00010000` and its end are 17 bytes. */
    CHECK("27: 99,999 items",
          w.number == 16 &&
              w.bytes == 6 + 20 + strlen("2 19 99999 020118") + 2 +
                             99999 * 17 + 10);
    w = write_many(1, 100000, C, 0);
    CHECK("27: item 100,000", w.number == 20 && w.row == 100002 && w.field == 0);
    w = write_many(1, 100000, C, 100002);
    CHECK("27: item 100,000 before its fields",
          w.number == 20 && w.row == 100002 && w.field == 0);
    w = write_spoiled(1, 100000, C, 100002, 21);
    CHECK("27: item 100,000 before its reference",
          w.number == 20 && w.row == 100002 && w.field == 0);
    w = write_spoiled(1, 100000, C, 100001, 21);
    CHECK("27: the reference of item 99,999",
          w.number == 20 && w.row == 100001 && w.field == 21);
    w = write_many(2, 60000, C, 0);
    CHECK("27: the next account file counts anew", w.number == 16);
    w = write_many(1000, 1, K, 0);
    CHECK("27: 1,000 account files", w.number == 16);
    w = write_many(1001, 1, K, 0);
    CHECK("27: account file 1,001",
          w.number == 20 && w.row == 3001 && w.field == 0);
    w = write_many(2, 500, S, 0);
    CHECK("27: 1,000 items of S", w.number == 16);
    w = write_many(2, 501, S, 0);
    CHECK("27: item 1,001 of S is 21",
          w.number == 21 && w.row == 1005 && w.field == 0);
    w = write_many(2, 501, S, 1006);
    CHECK("27: 20 behind item 1,001 of S",
          w.number == 20 && w.row == 1006 && w.field == 5);
    w = write_spoiled(2, 501, S, 1005, 21);
    CHECK("27: 20 in item 1,001 of S",
          w.number == 20 && w.row == 1005 && w.field == 21);
    w = write_many(2, 501, E, 0);
    CHECK("27: 1,002 items of E", w.number == 16);
    w = write_many(2, 501, P, 0);
    CHECK("27: 1,002 items of P", w.number == 16);
}

static void first_20_then_21_28(void)
{
    batch_start(&b);
    b.words[0][1] = 1504;
    not_written("28: 1504 on K", &b, K, 21, 1, 1);
    not_written("28: 1504 on S", &b, S, 21, 1, 1);
    not_written("28: 1504 on E", &b, E, 21, 1, 1);
    not_written("28: 1504 on P", &b, P, 21, 1, 1);
    CHECK("28: 1504 on C", batch_write(&b, C, TODAY, 4096).number == 0);
    b.words[2][10] = 2;
    not_written("28: 20 in row 3 before 21 in row 1", &b, K, 20, 3, 10);
    batch_start(&b);
    b.words[0][1] = 1502;
    CHECK("28: 1502 on S", batch_write(&b, S, TODAY, 4096).number == 0);
    CHECK("28: 1502 on P", batch_write(&b, P, TODAY, 4096).number == 0);
    not_written("28: 1502 on K", &b, K, 21, 1, 1);
    not_written("28: 1502 on E", &b, E, 21, 1, 1);
    b.words[0][1] = 1503;
    not_written("28: 1503 on S", &b, S, 21, 1, 1);
    not_written("28: 1503 on P", &b, P, 21, 1, 1);
    batch_start(&b);
    b.from = b.to = 0;
    CHECK("28: start and end alike on K",
          batch_write(&b, K, TODAY, 4096).number == 0);
    b.from = 7;
    b.to = 6;
    not_written("28: start above end on K", &b, K, 21, 0, 5);
    CHECK("28: start above end on S",
          batch_write(&b, S, TODAY, 4096).number == 0);
    CHECK("28: start above end on E",
          batch_write(&b, E, TODAY, 4096).number == 0);
    CHECK("28: start above end on P",
          batch_write(&b, P, TODAY, 4096).number == 0);
    b.words[2][9] = 10000;
    not_written("28: 20 in a row before 21 in the header", &b, K, 20, 3, 9);
    batch_start(&b);
    batch_text(&b, b.words[2], 11, "a|b");
    not_written("28: a bar in a part, on S too", &b, S, 20, 3, 11);
    not_written("28: a bar in a part, on C too", &b, C, 20, 3, 11);
    batch_start(&b);
    batch_text(&b, b.words[2], 19, "a\x1f");
    not_written("28: a control byte in a name", &b, C, 20, 3, 19);
}

static void numbers_21(void)
{
    batch_start(&b);
    b.from = 5;
    b.to = 7;
    not_written("no. 21: below the interval", &b, K, 21, 1, 2);
    b.words[0][2] = 4999;
    not_written("no. 21: below the interval", &b, K, 21, 1, 2);
    b.words[0][2] = 8000;
    not_written("no. 21: above the interval", &b, K, 21, 1, 2);
    b.words[0][2] = 7999;
    CHECK("no. 21: three digits in the interval",
          batch_write(&b, K, TODAY, 4096).number == 0);
    b.words[0][2] = 999999;
    CHECK("no. 21: no interval on E", batch_write(&b, E, TODAY, 4096).number == 0);
    batch_start(&b);
    batch_file(&b, 1501, 999);
    batch_group(&b, 20180102, 19, 19);
    batch_item(&b);
    not_written("no. 21: repeated on K", &b, K, 21, 4, 2);
    CHECK("no. 21: repeated on S", batch_write(&b, S, TODAY, 4096).number == 0);
    CHECK("no. 21: repeated on P", batch_write(&b, P, TODAY, 4096).number == 0);
    b.words[3][2] = 1000;
    CHECK("no. 21: not repeated", batch_write(&b, K, TODAY, 4096).number == 0);
}

static void days_21(void)
{
    static const struct {
        uint64_t day;
        bool fits[6];
    } days[] = {
        /* 29: C carries past days, and so does P. */
        {20171231, {0, false, false, true, true, true}},
        {20180101, {0, true, true, true, true, true}},
        {20181231, {0, true, true, true, true, true}},
        {20190101, {0, false, true, true, true, true}},
        {20190102, {0, false, true, false, true, false}},
        {20991231, {0, false, true, false, true, false}},
        {20000101, {0, false, false, true, true, true}},
    };
    for (size_t i = 0; i < sizeof days / sizeof *days; i++)
        for (uint64_t sheet = K; sheet <= P; sheet++) {
            batch_start(&b);
            b.words[1][1] = days[i].day;
            if (days[i].fits[sheet])
                CHECK("no. 21, 29: a day that is carried",
                      batch_write(&b, sheet, TODAY, 4096).number == 0);
            else
                not_written("no. 21: a day outside", &b, sheet, 21, 2, 1);
        }
}

static void item_fields_21(void)
{
    for (uint64_t sheet = K; sheet <= P; sheet++) {
        batch_start(&b);
        b.words[2][6] = 1000000000000;
        if (sheet == S || sheet == E)
            not_written("no. 21: 10^12", &b, sheet, 21, 3, 6);
        else
            CHECK("no. 21: 10^12", batch_write(&b, sheet, TODAY, 4096).number == 0);
        b.words[2][6] = 999999999999;
        CHECK("no. 21: 10^12 - 1", batch_write(&b, sheet, TODAY, 4096).number == 0);
        for (uint64_t p = 3; p <= 9; p++) {
            batch_start(&b);
            b.words[2][10] = p;
            if (sheet == K || p == 5)
                CHECK("no. 21: priority",
                      batch_write(&b, sheet, TODAY, 4096).number == 0);
            else
                not_written("no. 21: priority", &b, sheet, 21, 3, 10);
        }
    }
    batch_start(&b);
    b.words[2][6] = 1000000000000;
    b.words[2][10] = 9;
    not_written("no. 21: the first field", &b, S, 21, 3, 6);
}

static void item_texts_21(void)
{
    for (uint64_t sheet = K; sheet <= P; sheet++) {
        for (size_t word = 13; word <= 17; word += 2) {
            batch_start(&b);
            batch_text(&b, b.words[2], word, "x");
            if (sheet == S)
                not_written("no. 21: a later part on S", &b, S, 21, 3, word);
            else
                CHECK("no. 21: a later part",
                      batch_write(&b, sheet, TODAY, 4096).number == 0);
        }
        batch_start(&b);
        batch_text(&b, b.words[2], 19, "Jan");
        if (sheet == C)
            CHECK("no. 21: a name", batch_write(&b, C, TODAY, 4096).number == 0);
        else
            not_written("no. 21: a name", &b, sheet, 21, 3, 19);
        for (size_t word = 11; word <= 17; word += 2) {
            batch_start(&b);
            batch_text(&b, b.words[2], word, "a NP:b");
            if (sheet == C)
                not_written("no. 21: a message with the mark", &b, C, 21, 3, word);
            else if (sheet != S)
                CHECK("no. 21: the mark elsewhere",
                      batch_write(&b, sheet, TODAY, 4096).number == 0);
        }
    }
    batch_start(&b);
    batch_text(&b, b.words[2], 11, "NP:x NP");
    batch_text(&b, b.words[2], 13, ": NP");
    batch_text(&b, b.words[2], 19, " NP:|");
    CHECK("no. 21: no mark inside one part",
          batch_write(&b, C, TODAY, 4096).number == 0);
}

static void header_of_c_29(void)
{
    size_t len;
    uint8_t *rows = many_rows(1, 1, &len), out[100];
    static const char want[] = "UHL1" CRLF "1 1501 000000 0300" CRLF
                               "2 19 1 020118" CRLF "19 1 0 00010000" CRLF
                               "3 +" CRLF "5 +" CRLF;
    struct peer_written w =
        peer_write(rows, len, NULL, 0, UINT64_MAX, NULL, 0, UINT64_MAX,
                   UINT64_MAX, UINT64_MAX, C, TODAY, out, sizeof out);
    CHECK("29: no header on C", w.number == 0 && w.bytes == strlen(want) &&
                                    memcmp(out, want, strlen(want)) == 0);
    free(rows);
}

static void empty_texts_30(void)
{
    batch_start(&b);
    batch_text(&b, b.words[2], 11, "led");
    b.words[2][13] = 3;
    b.words[2][15] = 2;
    CHECK("30: an empty text inside",
          batch_write(&b, K, TODAY, 4096).number == 0);
    b.words[2][13] = 4;
    not_written("30: an empty text outside", &b, K, 20, 3, 13);
    b.words[2][13] = UINT64_MAX;
    not_written("30: an empty text far outside", &b, K, 20, 3, 13);
    b.words[2][13] = UINT64_MAX - 2;
    b.words[2][14] = 5;
    not_written("30: a sum that wraps", &b, K, 20, 3, 13);
    b.words[2][13] = 0;
    b.words[2][14] = 4;
    not_written("30: one byte too long", &b, K, 20, 3, 13);
    b.words[2][14] = 3;
    CHECK("30: two texts in one place",
          batch_write(&b, K, TODAY, 4096).number == 0);
    for (uint64_t sheet = K; sheet <= P; sheet++) {
        batch_start(&b);
        for (size_t word = 3; word < WORDS; word++)
            b.words[0][word] = UINT64_MAX;
        for (size_t word = 4; word < WORDS; word++)
            b.words[1][word] = UINT64_MAX;
        for (size_t word = 22; word < WORDS; word++)
            b.words[2][word] = UINT64_MAX;
        CHECK("30: words without use are not looked at",
              batch_write(&b, sheet, TODAY, 4096).number == 0);
    }
}

static void sheet_and_today(void)
{
    batch_start(&b);
    b.words[0][0] = 0;
    static const uint64_t sheets[] = {0, 6, UINT64_MAX};
    for (size_t i = 0; i < 3; i++) {
        not_written("no. 1", &b, sheets[i], 1, 0, 0);
        struct peer_written w = batch_write(&b, sheets[i], 0, 10);
        CHECK("no. 1 before 2", w.number == 1 && w.bytes == 0);
    }
    static const uint64_t days[] = {0, 20180132, 21000101, UINT64_MAX};
    for (size_t i = 0; i < 4; i++) {
        struct peer_written w = batch_write(&b, K, days[i], 10);
        CHECK("no. 2 before 20", w.number == 2 && w.row == 0 && w.field == 0 &&
                                 w.bytes == 0);
    }
    struct peer_written w = peer_write(NULL, 0, NULL, 0, 0, NULL, 0, 0, 0, 0, C,
                                       TODAY, NULL, 0);
    CHECK("no rows", w.number == 20 && w.row == 1 && w.field == 0);
    w = peer_write(NULL, 0, NULL, 0, 0, NULL, 0, 0, 0, 0, K, TODAY, NULL, 0);
    CHECK("no header", w.number == 20 && w.row == 0 && w.field == 1);
}

#define HEAD FIRST_58 CRLF
#define ITEM "705 5001 42 03000558"
#define END CRLF "3 +" CRLF "5 +" CRLF

static void spelling_plain(void)
{
    batch_start(&b);
    written("Canonical: K", &b, K,
            HEAD "1 1501 000000 8100" CRLF "2 19-19 5001 020118" CRLF ITEM END);
    written("Canonical: S", &b, S,
            HEAD "1 1501 000000 0800" CRLF "2 19-19 5001 020118" CRLF ITEM
                 "  " END);
    written("Canonical: C", &b, C,
            "UHL1" CRLF "1 1501 000000 0300" CRLF "2 19-19 5001 020118" CRLF
            ITEM END);
    written("Canonical: E", &b, E,
            HEAD "1 1501 000000 6100" CRLF "2 19-19 5001 020118" CRLF ITEM END);
    written("Canonical: P", &b, P,
            HEAD "1 1501 000000 0300" CRLF "2 19-19 5001 020118" CRLF ITEM END);
    b.words[1][2] = b.words[1][3] = 0;
    b.words[2][2] = 19;
    written("Canonical: single on K", &b, K,
            HEAD "1 1501 000000 8100" CRLF "2 5001 020118" CRLF "19 " ITEM END);
    written("Canonical: single on S", &b, S,
            HEAD "1 1501 000000 0800" CRLF "2  5001 020118" CRLF "19 " ITEM
                 "  " END);
    written("Canonical: single on C", &b, C,
            "UHL1" CRLF "1 1501 000000 0300" CRLF "2 5001 020118" CRLF
            "19 " ITEM END);
    written("Canonical: single on E", &b, E,
            HEAD "1 1501 000000 6100" CRLF "2  5001 020118" CRLF "19 " ITEM
            END);
    written("Canonical: single on P", &b, P,
            HEAD "1 1501 000000 0300" CRLF "2 5001 020118" CRLF "19 " ITEM END);
}

/* Two account files whose fields are long, short or missing. */
static void wide_batch(void)
{
    batch_start(&b);
    b.date = 20990228;
    b.client = 7;
    b.from = 1;
    b.to = 23;
    b.words[0][2] = 23004;
    b.words[1][1] = 20181231;
    b.words[1][2] = 500005;
    b.words[1][3] = 2267100237;
    uint64_t *item = b.words[2];
    item[3] = 174;
    item[4] = 1999738514;
    item[5] = 1;
    item[6] = 99999999999998;
    item[7] = 9999999999;
    item[8] = 9999999999;
    item[9] = 7;
    item[10] = 3;
    batch_text(&b, item, 17, T35);
    item = batch_item(&b);
    item[6] = 1;
    item[7] = 0;
    item[9] = 0;
    item[10] = 9;
    batch_group(&b, 20180101, 0, 0);
    item = batch_item(&b);
    item[1] = 19;
    item[2] = 19;
    batch_file(&b, 1501, 1999);
    batch_group(&b, 20180102, 0, 705);
    batch_item(&b);
}

static void spelling_wide(void)
{
    wide_batch();
    written("Canonical: all of K", &b, K,
            "UHL1280299KLIENT TEST         0000000007001023000000000000" CRLF
            "1 1501 023004 8100" CRLF
            "2 500005-2267100237 99999999999999 311218" CRLF
            "174-1999738514 99999999999998 9999999999 0300010007 9999999999"
            " AV:|||" T35 CRLF
            "705 1 0 0903000000" CRLF
            "3 +" CRLF
            "2 5001 010118" CRLF
            "19-19 " ITEM CRLF
            "3 +" CRLF
            "5 +" CRLF
            "1 1501 001999 8100" CRLF
            "2 705 5001 020118" CRLF ITEM END);
}

static void spelling_tails(void)
{
    static const char k[] = HEAD "1 1501 000000 8100" CRLF
                                 "2 19-19 5001 020118" CRLF ITEM;
    char want[500];
    batch_start(&b);
    b.words[2][8] = 17;
    snprintf(want, sizeof want, "%s 17" END, k);
    written("Canonical: a symbol", &b, K, want);
    b.words[2][8] = 0;
    batch_text(&b, b.words[2], 13, " b ");
    snprintf(want, sizeof want, "%s 0 AV:| b " END, k);
    written("Canonical: text and no symbol", &b, K, want);
    batch_text(&b, b.words[2], 11, "a");
    snprintf(want, sizeof want, "%s 0 AV:a| b " END, k);
    written("Canonical: up to the last part", &b, K, want);
#define S_HEAD HEAD "1 1501 000000 0800" CRLF "2 19-19 5001 020118" CRLF ITEM
    batch_start(&b);
    b.words[2][8] = 17;
    written("Canonical: S, a symbol", &b, S, S_HEAD " 17 " END);
    batch_text(&b, b.words[2], 11, " led");
    written("Canonical: S, both", &b, S, S_HEAD " 17  led" END);
    b.words[2][8] = 0;
    written("Canonical: S, a part", &b, S, S_HEAD "   led" END);
#define C_HEAD "UHL1" CRLF "1 1501 000000 0300" CRLF "2 19-19 5001 020118" \
    CRLF ITEM
    batch_start(&b);
    batch_text(&b, b.words[2], 19, "Jan|  NP:");
    written("Canonical: C, a name alone", &b, C, C_HEAD " 0 NP:Jan|  NP:" END);
    b.words[2][8] = 17;
    batch_text(&b, b.words[2], 15, "NP:x");
    written("Canonical: C, a part and a name", &b, C,
            C_HEAD " 17 AV:||NP:x NP:Jan|  NP:" END);
    b.words[2][20] = 0;
    written("Canonical: C, a part", &b, C, C_HEAD " 17 AV:||NP:x" END);
}

void test_writing(void)
{
    fields_26();
    header_26();
    header_names_26();
    order_of_fields_26();
    missing_rows_27();
    payers_27();
    sums_27();
    too_many_27();
    first_20_then_21_28();
    numbers_21();
    days_21();
    item_fields_21();
    item_texts_21();
    header_of_c_29();
    empty_texts_30();
    sheet_and_today();
    spelling_plain();
    spelling_wide();
    spelling_tails();
}
