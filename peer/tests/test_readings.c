/* Readings 1 to 10 and 25: lines, their order, the first line, the answers.
   Each assertion is named by its reading's number. */
#include "check.h"

/* The frame on C with other line ends. */
static const char *ended(const char *plain, const char *end)
{
    static char room[1000];
    size_t at = 0;
    for (; *plain != 0; plain++) {
        if (*plain != '\n')
            room[at++] = *plain;
        else
            for (const char *e = end; *e != 0; e++)
                room[at++] = *e;
    }
    room[at] = 0;
    return room;
}

static void line_ends_1(void)
{
    refused("1: LF CR is two ends", C, ended(PLAIN(C), "\n\r"), 3, 2, 0);
    refused("1: CR CR LF is two ends", C, ended(PLAIN(C), "\r\r\n"), 3, 2, 0);
    accepted("1: LF", C, PLAIN(C), 3, 0);
    accepted("1: CR LF", C, ended(PLAIN(C), "\r\n"), 3, 0);
    const char *file = ended(PLAIN(C), "\r");
    accepted("1: CR, the last byte too", C, file, 3, 0);
    accepted_bytes("1: no end behind the last line", C, TODAY, file,
                   strlen(file) - 1, 3, 0);
    refused("1: CR LF counts as one line", K,
            ended(FRAME(K, .item = "706"), "\r\n"), 5, 4, 0);
    refused("1: CR counts as one line", E,
            ended(FRAME(E, .item = "706"), "\r"), 5, 4, 0);
    for (unsigned sheet = K; sheet <= P; sheet++)
        accepted("1: CR LF", sheet, ended(PLAIN(sheet), "\r\n"), 3, 0);
}

static void empty_lines_2(void)
{
    for (unsigned sheet = K; sheet <= P; sheet++) {
        refused("2: empty, an account file is due", sheet,
                FRAME(sheet, .file = ""), 3, 2, 0);
        refused("2: empty, a group is due", sheet, FRAME(sheet, .group = ""),
                3, 3, 0);
        refused("2: empty, an item is due", sheet, FRAME(sheet, .item = ""), 4,
                4, 0);
        refused("2: empty, an item or the close is due", sheet,
                FRAME(sheet, .close = ""), 4, 5, 0);
        refused("2: empty, the account file's end is due", sheet,
                FRAME(sheet, .end = ""), 3, 6, 0);
        refused("2: one more line end", sheet, FRAME(sheet, .end = "5 +\n"), 3,
                7, 0);
        refused("2: an empty first line", sheet, FRAME(sheet, .first = ""), 3,
                1, 0);
    }
}

/* Cuts the frame behind so many lines, with the last end or without. */
static void early_end_3(void)
{
    refused_bytes("3: UHL1 alone", C, TODAY, "UHL1", 4, 3, 2, 4);
    refused_bytes("3: UHL1 and LF", C, TODAY, "UHL1\n", 5, 3, 2, 5);
    refused_bytes("3: UHL1 and CR LF", C, TODAY, "UHL1\r\n", 6, 3, 2, 6);
    for (unsigned sheet = K; sheet <= P; sheet++) {
        refused_bytes("3: empty", sheet, TODAY, "", 0, 3, 1, 0);
        const char *file = PLAIN(sheet);
        for (uint64_t lines = 1; lines <= 5; lines++) {
            size_t len = offset_of(file, strlen(file), lines + 1, 0);
            refused_bytes("3: early end", sheet, TODAY, file, len, 3, lines + 1,
                          len);
            refused_bytes("3: early end, no line end", sheet, TODAY, file,
                          len - 1, 3, lines + 1, len - 1);
        }
    }
}

static void closing_4(void)
{
    for (unsigned sheet = K; sheet <= P; sheet++) {
        bool tight = sheet == C || sheet == E;
        if (tight) {
            accepted("4: 3+ and 5+", sheet,
                     FRAME(sheet, .close = "3+", .end = "5+"), 3, 0);
            refused("4: 3+x", sheet, FRAME(sheet, .close = "3+x"), 4, 5, 2);
            refused("4: 5+ and a space", sheet, FRAME(sheet, .end = "5+ "), 4,
                    6, 2);
        } else {
            refused("4: 3+", sheet, FRAME(sheet, .close = "3+"), 4, 5, 1);
            refused("4: 5+", sheet, FRAME(sheet, .end = "5+"), 4, 6, 1);
            refused("4: 3+x", sheet, FRAME(sheet, .close = "3+x"), 4, 5, 1);
        }
        refused("4: 3 and a space", sheet, FRAME(sheet, .close = "3 "), 4, 5,
                2);
        refused("4: 3 x", sheet, FRAME(sheet, .close = "3 x"), 4, 5, 2);
        refused("4: two spaces", sheet, FRAME(sheet, .close = "3  +"), 4, 5, 2);
        refused("4: 3 + and a space", sheet, FRAME(sheet, .close = "3 + "), 4,
                5, 3);
        refused("4: 3 +x", sheet, FRAME(sheet, .close = "3 +x"), 4, 5, 3);
        refused("4: 5 and a space", sheet, FRAME(sheet, .end = "5 "), 4, 6, 2);
        refused("4: 5 + and a space", sheet, FRAME(sheet, .end = "5 + "), 4, 6,
                3);
    }
    refused_bytes("4: 3 and a space at the end", C, TODAY,
                  "UHL1\n1 1501 000000 0300\n2 705 1 010118\n"
                  "705 1 0 03000000\n3 ", 58, 4, 5, 58);
}

/* Lines that look like closing lines or heads: they are items, or not due. */
static void items_like_closing_4(void)
{
    for (unsigned sheet = K; sheet <= P; sheet++) {
        refused("4: 3 alone is an item", sheet, FRAME(sheet, .close = "3"),
                sheet == K ? 4 : 5, 5, 0);
        refused("4: 5 alone is an item", sheet, FRAME(sheet, .end = "5"), 3, 6,
                0);
        refused("4: 5+ where none is due", sheet, FRAME(sheet, .close = "5+"),
                3, 5, 0);
        refused("4: 1+ is an item", sheet, FRAME(sheet, .file = "1+"), 3, 2, 0);
        refused("4: 1+ as an item", sheet, FRAME(sheet, .item = "1+"), 4, 4, 0);
        refused("4: 2+ is an item", sheet, FRAME(sheet, .group = "2+"), 3, 3,
                0);
        refused("4: 2+ as an item", sheet, FRAME(sheet, .item = "2+"), 4, 4, 0);
        refused("4: 4 + is an item", sheet, FRAME(sheet, .close = "4 +"),
                sheet == K ? 4 : 5, 5, 0);
    }
}

static void due_5(void)
{
    static const char *const lines[] = {"UHL1", "1 1501 000000 0300",
                                        "2 19-19 5001 020118", "3 +", "5 +"};
    for (int i = 0; i < 5; i++) {
        if (i != 0)
            refused("5: at the top", C, FRAME(C, .first = lines[i]), 3, 1, 0);
        if (i != 1)
            refused("5: behind the first line", C, FRAME(C, .file = lines[i]),
                    3, 2, 0);
        if (i != 2)
            refused("5: behind the account file's head", C,
                    FRAME(C, .group = lines[i]), 3, 3, 0);
        refused("5: behind the group's head", C, FRAME(C, .item = lines[i]), 3,
                4, 0);
        if (i != 3)
            refused("5: behind an item", C, FRAME(C, .close = lines[i]), 3, 5,
                    0);
        if (i != 2 && i != 4)
            refused("5: behind 3 +", C, FRAME(C, .end = lines[i]), 3, 6, 0);
    }
    refused("5: an item behind the first line", C,
            FRAME(C, .file = "705 5001 42 03000558"), 3, 2, 0);
    refused("5: an item behind 3 +", C,
            FRAME(C, .end = "705 5001 42 03000558"), 3, 6, 0);
    refused("5: a group behind 5 +", C,
            FRAME(C, .end = "5 +\n2 19-19 5001 020118"), 3, 7, 0);
    refused("5: 5 + behind 5 +", C, FRAME(C, .end = "5 +\n5 +"), 3, 7, 0);
    refused("5: an item behind 5 +", C, FRAME(C, .end = "5 +\n705"), 3, 7, 0);
    refused("5: UHL1 behind 5 +", C, FRAME(C, .end = "5 +\nUHL1"), 3, 7, 0);
    accepted("5: a second item", E,
             FRAME(E, .group = "2 19-19 10002 020118",
                   .item = "705 5001 42 03000558\n705 5001 42 03000558"), 4, 0);
    accepted("5: a second group", E,
             FRAME(E, .close = "3 +\n2  7 311299\n705 19 7 0 03000000\n3+"), 5,
             0);
    accepted("5: a second account file", E,
             FRAME(E, .end = "5 +\n1 1501 000000 6100\n2 705 7 020118\n"
                             "705 7 0 03000000\n3+\n5+"), 6, 0);
}

/* ---- 6: limits ---- */

/* A file grown line by line. */
struct big {
    char *text;
    size_t len, room;
};

static void add(struct big *b, const char *lines)
{
    size_t len = strlen(lines);
    if (b->len + len > b->room) {
        b->room = 2 * (b->len + len);
        b->text = realloc(b->text, b->room);
        if (b->text == NULL)
            exit(2);
    }
    memcpy(b->text + b->len, lines, len);
    b->len += len;
}

static void add_items(struct big *b, const char *item, size_t count)
{
    while (count-- > 0)
        add(b, item);
}

static void many_items_6(unsigned sheet)
{
    struct big b = {0};
    add(&b, sheet == C ? "UHL1\n" : FIRST_58 "\n");
    add(&b, "1 1501 000000 0300\n2 705 99999 020118\n");
    add_items(&b, "705 1 0 03000000\n", 99999);
    size_t full = b.len;
    add(&b, "3 +\n5 +\n");
    accepted_bytes("6: 99,999 items", sheet, TODAY, b.text, b.len, 100001, 0);
    b.len = full;
    add(&b, "3 +\n2 7 020118\n");
    size_t next = b.len;
    add(&b, "no field of an item\n");
    refused_bytes("6: item 100,000, before its fields", sheet, TODAY, b.text,
                  b.len, 15, 100005, next);
    b.len = next;
    add(&b, "3 +\n");
    refused_bytes("6: 3 before 15 for items", sheet, TODAY, b.text, b.len, 3,
                  100005, next);
    b.len = full;
    add(&b, "3 +\n5 +\n1 1501 000000 0300\n2 705 1 020118\n"
            "705 1 0 03000000\n3 +\n5 +\n");
    accepted_bytes("6: the next account file counts anew", sheet, TODAY, b.text,
                   b.len, 100004, 0);
    free(b.text);
}

static void many_items_of_s_6(void)
{
    struct big b = {0};
    add(&b, FIRST_58 "\n1 1501 000000 0800\n2 705 500 020118\n");
    add_items(&b, "705 1 0 03000000  \n", 500);
    add(&b, "3 +\n2 705 300 020118\n");
    add_items(&b, "705 1 0 03000000  \n", 300);
    add(&b, "3 +\n5 +\n1 1502 000000 0800\n2 705 200 020118\n");
    add_items(&b, "705 1 0 03000000  \n", 200);
    size_t full = b.len;
    add(&b, "3 +\n5 +\n");
    accepted_bytes("6: 1,000 items of S", S, TODAY, b.text, b.len, 1005, 0);
    b.len = full;
    add(&b, "x\n");
    refused_bytes("6: item 1,001 of S, over the whole file", S, TODAY, b.text,
                  b.len, 15, 1010, full);
    free(b.text);
}

static void many_files_6(unsigned sheet)
{
    struct big b = {0};
    char lines[100];
    add(&b, sheet == C ? "UHL1\n" : FIRST_58 "\n");
    for (int i = 0; i < 1000; i++) {
        snprintf(lines, sizeof lines,
                 "1 1501 %03d000 %s\n2 705 1 020118\n705 1 0 03000000\n"
                 "3 +\n5 +\n", i, sheet == K ? "8100" : "0300");
        add(&b, lines);
    }
    size_t full = b.len;
    accepted_bytes("6: 1,000 account files", sheet, TODAY, b.text, b.len, 3000,
                   0);
    add(&b, "1 1501 000000 8100\n");
    refused_bytes("6: account file 1,001", sheet, TODAY, b.text, b.len, 15,
                  5002, full);
    b.len = full;
    add(&b, "1 x\n");
    refused_bytes("6: 15 before the fields", sheet, TODAY, b.text, b.len, 15,
                  5002, full);
    b.len = full;
    add(&b, "2 705 1 020118\n");
    refused_bytes("6: 3 before 15", sheet, TODAY, b.text, b.len, 3, 5002, full);
    free(b.text);
}

/* ---- 7 to 10: the first line ---- */

static const char *first_of(size_t len)
{
    static char room[100];
    snprintf(room, sizeof room, "%.*s", (int)len, FIRST_58 "0000000");
    return room;
}

static void first_line_7(void)
{
    static const unsigned sheets[] = {K, S, E, P};
    for (int i = 0; i < 4; i++) {
        unsigned sheet = sheets[i];
        for (size_t len = 4; len <= 65; len++) {
            const char *file = FRAME(sheet, .first = first_of(len));
            bool fits = len == 58 || (sheet == K && (len == 46 || len == 52));
            size_t at = len < 10   ? 4
                        : len < 30 ? 10
                        : len < 40 ? 30
                        : len < 43 ? 40
                        : len < 46 ? 43
                                   : 46;
            if (fits)
                accepted("7: length", sheet, file, 3, 0);
            else
                refused("7: length", sheet, file, 4, 1, at);
        }
        refused("7: a bad date before the length", sheet,
                FRAME(sheet, .first = "UHL1310218KLIENT"), 11, 1, 4);
        refused("7: a bad date before the name", sheet,
                FRAME(sheet, .first = "UHL1310218\t"), 11, 1, 4);
    }
    refused("7: K's 9 before the length", K,
            FRAME(K, .first = "UHL1010118KLIENT TEST         12345678900070060"),
            9, 1, 43);
    refused_bytes("7: the file ends in the first line", K, TODAY,
                  "UHL1010118KLIENT TEST", 21, 4, 1, 10);
    refused_bytes("7: UHL1 alone on K", K, TODAY, "UHL1", 4, 4, 1, 4);
    refused_bytes("7: UHL alone", K, TODAY, "UHL", 3, 3, 1, 0);
}

static void first_line_8(void)
{
    static const unsigned sheets[] = {K, S, E, P};
    for (int i = 0; i < 4; i++) {
        unsigned sheet = sheets[i];
        const char *file = FRAME(
            sheet, .first = "UHL1010118KLIENT\tTEST         1234567890000999"
                            "000000000000");
        refused("8: a tab in the name", sheet, file, 4, 1, 10);
        file = FRAME(sheet, .first = "UHL1010118KLIENT TEST        \x7f"
                                     "1234567890000999000000000000");
        refused("8: 127 in the name", sheet, file, 4, 1, 10);
        file = FRAME(sheet, .first = FIRST_46 "00000000000\x1f");
        refused("8: 31 in the rest", sheet, file, 4, 1, 46);
        file = FRAME(sheet, .first = FIRST_46 " |~\x80\xff z  XXX");
        accepted("8: any text bytes in the rest", sheet, file, 3, 0);
    }
}

static void first_line_9(void)
{
    static const unsigned sheets[] = {K, S, E, P};
    for (int i = 0; i < 4; i++) {
        unsigned sheet = sheets[i];
        const char *file =
            FRAME(sheet, .first = "UHL1311299KLIENT TEST         "
                                  "0000000000000999000000000000");
        accepted("9: any creation date", sheet, file, 3, 0);
        CHECK("9: creation date", test_answer.header.date == 20991231);
        file = FRAME(sheet, .first = "UHL1010100KLIENT TEST         "
                                     "0000000000000999000000000000");
        accepted("9: an early creation date", sheet, file, 3, 0);
        refused("9: a day that is not real", sheet,
                FRAME(sheet, .first = "UHL1290223KLIENT TEST"), 11, 1, 4);
        refused("9: a date's bytes", sheet,
                FRAME(sheet, .first = "UHL12902x3KLIENT TEST"), 4, 1, 4);
        file = FRAME(sheet, .first = "UHL1010118KLIENT TEST         "
                                     "123456789 000999000000000000");
        refused("9: client number", sheet, file, 4, 1, 30);
        file = FRAME(sheet, .first = "UHL1010118KLIENT TEST         "
                                     "1234567890-00999000000000000");
        refused("9: interval start", sheet, file, 4, 1, 40);
        file = FRAME(sheet, .first = "UHL1010118KLIENT TEST         "
                                     "123456789000099a000000000000");
        refused("9: interval end", sheet, file, 4, 1, 43);
        file = FRAME(sheet, .first = "UHL1010118KLIENT TEST         "
                                     "1234567890007006000000000000");
        if (sheet == K)
            refused("9: start above end on K", sheet, file, 9, 1, 43);
        else
            accepted("9: start above end elsewhere", sheet, file, 3, 0);
    }
}

static void first_line_10(void)
{
    accepted("10: C's first line", C,
             FRAME(C, .first = "UHL1\x01\x7f\t any |bytes"), 3, 0);
    accepted("10: no digits", C, FRAME(C, .first = "UHL1xx"), 3, 0);
    char file[200];
    size_t len = strlen(PLAIN(C));
    memcpy(file, PLAIN(C), 4);
    file[4] = 0;
    memcpy(file + 5, PLAIN(C) + 4, len - 4);
    accepted_bytes("10: a zero byte", C, TODAY, file, len + 1, 3, 0);
    refused("10: UHL2", C, FRAME(C, .first = "UHL2"), 3, 1, 0);
}

static void answers_25(void)
{
    const char *file = PLAIN(K);
    uint8_t rows[3 * ROW];
    memset(rows, 7, sizeof rows);
    for (size_t room = 0; room < 3 * ROW; room += 1 + room % 97) {
        struct peer_answer a = peer_read((const uint8_t *)file, strlen(file), K,
                                         TODAY, room > 0 ? rows : NULL, room);
        CHECK("25: 16 and the rows needed",
              a.number == 16 && a.needed == 3 && a.rows == 0 &&
                  a.warnings == 0 && a.line == 0 && a.byte == 0);
        CHECK("25: 16 with the empty header",
              a.header.date == 0 && a.header.client == 0 && a.header.to == 0 &&
                  a.header.name[0] == ' ' && a.header.name[19] == ' ');
    }
    for (size_t i = 0; i < sizeof rows; i++)
        if (rows[i] != 7) {
            CHECK("25: 16 touches no row", false);
            return;
        }
    CHECK("25: 16 touches no row", true);
}

void test_readings(void)
{
    line_ends_1();
    empty_lines_2();
    early_end_3();
    closing_4();
    items_like_closing_4();
    due_5();
    many_items_6(C);
    many_items_6(P);
    many_items_of_s_6();
    many_files_6(K);
    many_files_6(C);
    many_files_6(P);
    first_line_7();
    first_line_8();
    first_line_9();
    first_line_10();
    answers_25();
}
