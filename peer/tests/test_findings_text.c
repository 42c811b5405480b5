/* The findings in words (request W-205): rules, fields and what was allowed, as
   each sheet has them; quoting; whole texts. */
#include "check_findings.h"

#define ITEM "705 5001 42 03000558"
#define NAME "KLIENT TEST         "
#define T35 "12345678901234567890123456789012345"
#define WRONG ": the field is not spelled as it must be (4); found "
#define K_ACCOUNT "2 to 10 digits, or 1 to 6 digits, a dash and 2 to 10 digits"
#define SE_ACCOUNT "1 to 10 digits, or 1 to 6 digits, a dash and 1 to 10 digits"
#define CP_ACCOUNT "1 to 16 digits, or 1 to 6 digits, a dash and 1 to 10 digits"
#define E_AMOUNT                                                           \
    "1 to 14 bytes: digits, and where there is a comma, two digits behind" \
    " it and one or more before it"
#define TEXT_BYTES "text bytes, 32 to 255 but 127"
#define C_TEXT "1 to 10 digits, or " TEXT_BYTES ", the first no space"

/* One line of the frame replaced, on each sheet of these letters, and the words
   behind the place.  In a single group the item has a payer. */
struct wording {
    const char *sheets;
    unsigned line;
    const char *text, *words;
    bool single;
};

static unsigned sheet_of(char letter)
{
    return (unsigned)(strchr("KSCEP", letter) - "KSCEP") + 1;
}

static const char *file_of(unsigned sheet, const struct wording *w)
{
    struct frame frame = {.sheet = sheet};
    const char **lines[] = {&frame.first, &frame.file,  &frame.group,
                            &frame.item,  &frame.close, &frame.end};
    if (w->single)
        frame.group = sheet == S || sheet == E ? "2  5001 020118"
                                               : "2 5001 020118";
    *lines[w->line - 1] = w->text;
    return frame_text(frame);
}

/* The places are those of the list, which has its own tests. */
static void says_on(const char *what, unsigned sheet, uint64_t today,
                    const char *file, const char *says)
{
    char sentence[700];
    if (find_all(what, sheet, today, file, strlen(file)) == 0) {
        CHECK(what, false);
        return;
    }
    snprintf(sentence, sizeof sentence, "Line %d, byte %d, %s\n",
             (int)test_found[0].line, (int)test_found[0].byte, says);
    words_on(what, sheet, today, file, sentence);
}

static void say_all(const struct wording *wordings, size_t count)
{
    for (const struct wording *w = wordings; w < wordings + count; w++)
        for (const char *s = w->sheets; *s != 0; s++)
            says_on(w->words, sheet_of(*s), TODAY, file_of(sheet_of(*s), w),
                    w->words);
}
#define SAY(wordings) say_all((wordings), sizeof(wordings) / sizeof *(wordings))

#define DUE "the line: another line is due (3); found "

static const struct wording lines_3[] = {
    {"KSCEP", 1, "", DUE "nothing; allowed: a first line, UHL1.", 0},
    {"KSCEP", 2, "2 1 010118",
     DUE "\"2 1 010118\"; allowed: an account file, 1.", 0},
    {"KSCEP", 3, "x", DUE "\"x\"; allowed: a group, 2.", 0},
    {"KSCEP", 4, "3 +", DUE "\"3 +\"; allowed: an item.", 0},
    {"KSCEP", 5, "5+",
     DUE "\"5+\"; allowed: an item or the group's end, 3 +.", 0},
    {"KSCEP", 6, "3+",
     DUE "\"3+\"; allowed: a group, 2, or the account file's end, 5 +.", 0},
    {"KSCEP", 6, "5 +\nUHL1",
     DUE "\"UHL1\"; allowed: an account file, 1, or the end of the file.", 0},
};

static const struct wording first_line[] = {
    {"KSEP", 1, "UHL10101x8",
     "the creation date" WRONG "\"0101x8\"; allowed: six digits, DDMMRR.", 0},
    {"KSEP", 1, "UHL1010118",
     "the name" WRONG "nothing; allowed: 20 bytes of text.", 0},
    {"KSEP", 1, "UHL1010118" NAME "12",
     "the client number" WRONG "\"12\"; allowed: ten digits.", 0},
    {"KSEP", 1, "UHL1010118" NAME "1234567890 00999",
     "the interval's start" WRONG "\" 00\"; allowed: three digits.", 0},
    {"KSEP", 1, "UHL1010118" NAME "12345678900009",
     "the interval's end" WRONG "\"9\"; allowed: three digits.", 0},
    {"K", 1, FIRST_46 "0 0",
     "the rest" WRONG "\"0 0\"; allowed: 0 or 6 or 12 bytes of text.", 0},
    {"SEP", 1, FIRST_46,
     "the rest" WRONG "nothing; allowed: 12 bytes of text.", 0},
    {"KSEP", 1, "UHL1310418",
     "the creation date: the day is not allowed (11); found \"310418\"; allowed:"
     " a real day of 2000 to 2099.", 0},
};

static const struct wording file_line[] = {
    {"KSCEP", 2, "1 150", "the kind" WRONG "\"150\"; allowed: four digits.", 0},
    {"KSCEP", 2, "1 1501  0", "the number" WRONG "nothing; allowed: six digits.",
     0},
    {"KSCEP", 2, "1 1501 000000 00300",
     "the bank" WRONG "\"00300\"; allowed: four digits.", 0},
    {"KSCEP", 2, "1 1501",
     "the number" WRONG "nothing; allowed: a space and the number behind it.",
     0},
    {"KSCEP", 2, "1 1501 000000",
     "the bank" WRONG "nothing; allowed: a space and the bank behind it.", 0},
    {"C", 2, "1 1501 000000 0000 0000",
     "the bank" WRONG "\" 0000\"; allowed: the end of the line.", 0},
    {"KE", 2, "1 1502",
     "the kind: the kind is not on the sheet (7); found \"1502\"; allowed:"
     " 1501.", 0},
    {"SP", 2, "1 1503",
     "the kind: the kind is not on the sheet (7); found \"1503\"; allowed: 1501"
     " to 1502.", 0},
    {"C", 2, "1 1505",
     "the kind: the kind is not on the sheet (7); found \"1505\"; allowed: 1501"
     " to 1504.", 0},
    {"K", 2, "1 1501 000000 0001",
     "the bank: the payer's bank is not the sheet's (8); found \"0001\"; allowed:"
     " 8100.", 0},
    {"S", 2, "1 1501 000000 0001",
     "the bank: the payer's bank is not the sheet's (8); found \"0001\"; allowed:"
     " 0800.", 0},
    {"E", 2, "1 1501 000000 0001",
     "the bank: the payer's bank is not the sheet's (8); found \"0001\"; allowed:"
     " 6100.", 0},
    {"P", 2, "1 1501 000000 0001",
     "the bank: the payer's bank is not the sheet's (8); found \"0001\"; allowed:"
     " 0300.", 0},
};

static const struct wording group_line[] = {
    {"K", 3, "2 x 5001 020118",
     "the payer's account" WRONG "\"x\"; allowed: " K_ACCOUNT
     "; zeros alone for a single group.", 0},
    {"S", 3, "2 x 5001 020118",
     "the payer's account" WRONG "\"x\"; allowed: " SE_ACCOUNT
     "; nothing for a single group.", 0},
    {"CP", 3, "2 x 5001 020118",
     "the payer's account" WRONG "\"x\"; allowed: " CP_ACCOUNT ".", 0},
    {"E", 3, "2 x 5001 020118",
     "the payer's account" WRONG "\"x\"; allowed: " SE_ACCOUNT
     "; nothing or zeros alone for a single group.", 0},
    {"KSCP", 3, "2 19-19 x 020118",
     "the total" WRONG "\"x\"; allowed: 1 to 14 digits.", 0},
    {"E", 3, "2 19-19 x 020118",
     "the total" WRONG "\"x\"; allowed: " E_AMOUNT ".", 0},
    {"SE", 3, "2 ",
     "the total" WRONG "nothing; allowed: a space and the total behind it.", 0},
    {"KSE", 3, "2 19-19 5001 x",
     "the due date" WRONG "\"x\"; allowed: six digits, DDMMRR.", 0},
    {"CP", 3, "2 19-19 5001 x",
     "the due date" WRONG
     "\"x\"; allowed: six digits, DDMMRR, or eight, RRRRMMDD.", 0},
    {"SE", 3, "2 19-19 5001",
     "the due date" WRONG "nothing; allowed: a space and the due date behind it.",
     0},
    {"KSCEP", 3, "2 19-19 5001 020118  ",
     "the due date" WRONG "\"  \"; allowed: the end of the line.", 0},
    {"S", 3, "2 19-19 5001 311217",
     "the due date: the day is not allowed (11); found \"311217\"; allowed: from"
     " 2018-01-01 on.", 0},
    {"CP", 3, "2 19-19 5001 020119",
     "the due date: the day is not allowed (11); found \"020119\"; allowed: at"
     " most 365 days after 2018-01-01.", 0},
    {"CP", 3, "2 19-19 5001 21000101",
     "the due date: the day is not allowed (11); found \"21000101\"; allowed: a"
     " real day of 2000 to 2099.", 0},
    {"KSP", 3, "2 19-19 050 020118",
     "the total: the total is not the sum (10); found \"050\"; allowed: the sum"
     " of the items, 5001.", 0},
};

static const struct wording item_line[] = {
    {"K", 4, "x", "the payer's account" WRONG "\"x\"; allowed: " K_ACCOUNT ".",
     1},
    {"SE", 4, "x", "the payer's account" WRONG "\"x\"; allowed: " SE_ACCOUNT ".",
     1},
    {"CP", 4, "x", "the payer's account" WRONG "\"x\"; allowed: " CP_ACCOUNT ".",
     1},
    {"KSCEP", 4, "19",
     "the payee's account" WRONG
     "nothing; allowed: a space and the payee's account behind it.", 1},
    {"KSCEP", 4, "18-19",
     "the payer's account: the account is not valid (5); found \"18-19\";"
     " allowed: a prefix whose weighted digits add up to a multiple of 11.", 1},
    {"KSCEP", 4, "706",
     "the payee's account: the account is not valid (5); found \"706\"; allowed:"
     " a base whose weighted digits add up to a multiple of 11.", 0},
    {"KSCEP", 4, "00",
     "the payee's account: the account is not valid (5); found \"00\"; allowed: a"
     " base with two digits or more that are not zero.", 0},
    {"KCP", 4, "705 x", "the amount" WRONG "\"x\"; allowed: 1 to 14 digits.", 0},
    {"S", 4, "705 x", "the amount" WRONG "\"x\"; allowed: 1 to 12 digits.", 0},
    {"E", 4, "705 x", "the amount" WRONG "\"x\"; allowed: " E_AMOUNT ".", 0},
    {"KCP", 4, "705 0",
     "the amount: the amount is not allowed (6); found \"0\"; allowed: 1 to"
     " 99999999999999.", 0},
    {"SE", 4, "705 0",
     "the amount: the amount is not allowed (6); found \"0\"; allowed: 1 to"
     " 999999999999.", 0},
    {"E", 4, "705 1000000000000",
     "the amount: the amount is not allowed (6); found \"1000000000000\";"
     " allowed: 1 to 999999999999.", 0},
    {"KSCEP", 4, "705 5001",
     "the variable symbol" WRONG
     "nothing; allowed: a space and the variable symbol behind it.", 0},
    {"KSCEP", 4, "705 5001 x",
     "the variable symbol" WRONG "\"x\"; allowed: 1 to 10 digits.", 0},
    {"KSCEP", 4, "705 5001 42",
     "the bank field" WRONG
     "nothing; allowed: a space and the bank field behind it.", 0},
    {"KSCEP", 4, "705 5001 42 3000558",
     "the bank field" WRONG "\"3000558\"; allowed: 8 to 10 digits.", 0},
    {"KSCEP", 4, "705 5001 42 00000558",
     "the bank field: the payee's bank is 0000 (12); found \"00000558\"; allowed:"
     " 0001 to 9999.", 0},
    {"KSCEP", 4, "705 5001 42 1003000558",
     "the bank field: a leading digit is not allowed (13); found \"1003000558\";"
     " allowed: 0 as the tenth digit from the right.", 0},
    {"SCEP", 4, "705 5001 42 103000558",
     "the bank field: a leading digit is not allowed (13); found \"103000558\";"
     " allowed: 0 as the ninth digit from the right.", 0},
};

#define BREAKS "the text: the text breaks the sheet (14); found "

static const struct wording tails[] = {
    {"S", 4, ITEM,
     "the specific symbol" WRONG
     "nothing; allowed: a space and the specific symbol behind it.", 0},
    {"S", 4, ITEM " 17",
     "the text" WRONG "nothing; allowed: a space and the text behind it.", 0},
    {"S", 4, ITEM " x ",
     "the specific symbol" WRONG "\"x\"; allowed: 0 to 10 digits.", 0},
    {"KEP", 4, ITEM " ",
     "the specific symbol" WRONG "nothing; allowed: 1 to 10 digits.", 0},
    {"S", 4, ITEM "  \x1f", "the text" WRONG "\"\\x1F\"; allowed: " TEXT_BYTES ".",
     0},
    {"KEP", 4, ITEM " 17 ",
     "the text" WRONG "nothing; allowed: " TEXT_BYTES
     ", one or more, the first no space.", 0},
    {"KEP", 4, ITEM " 17  AV:x",
     "the text" WRONG "\" AV:x\"; allowed: " TEXT_BYTES
     ", one or more, the first no space.", 0},
    {"C", 4, ITEM " ", "the text" WRONG "nothing; allowed: " C_TEXT ".", 0},
    {"C", 4, "19 " ITEM " ", "the text" WRONG "nothing; allowed: " C_TEXT ".",
     1},
    {"C", 4, ITEM "  ", "the text" WRONG "\" \"; allowed: " C_TEXT ".", 0},
    {"C", 4, ITEM " 1\x1f", "the text" WRONG "\"1\\x1F\"; allowed: " C_TEXT ".",
     0},
    {"C", 4, ITEM " 17 ", "the text" WRONG "nothing; allowed: " C_TEXT ".", 0},
    {"C", 4, ITEM " 17  AV:x",
     "the text" WRONG "\" AV:x\"; allowed: " C_TEXT ".", 0},
    {"C", 4, ITEM " 17 1\x1f",
     "the text" WRONG "\"1\\x1F\"; allowed: " C_TEXT ".", 0},
    {"KEP", 4, ITEM " 1 AV",
     BREAKS "\"AV\"; allowed: a text that begins with AV:.", 0},
    {"KCEP", 4, ITEM " 1 AV:||||",
     BREAKS "\"AV:||||\"; allowed: at most 4 parts.", 0},
    {"KEP", 4, ITEM " 1 AV:" T35 "6",
     BREAKS "\"AV:" T35 "6\"; allowed: at most 35 bytes in a part.", 0},
    {"S", 4, ITEM " 1 " T35 "6",
     BREAKS "\"" T35 "6\"; allowed: at most 35 bytes in a part.", 0},
    {"S", 4, ITEM " 1 |", BREAKS "\"|\"; allowed: no bar.", 0},
    {"P", 4, ITEM " 1 AV:a~", BREAKS "\"AV:a~\"; allowed: no # and no ~.", 0},
};

static const struct wording closings[] = {
    {"KSP", 5, "3+", "the group's end" WRONG "\"+\"; allowed: 3 +.", 0},
    {"CE", 5, "3 ", "the group's end" WRONG "nothing; allowed: 3 + or 3+.", 0},
    {"KSP", 6, "5 x",
     "the account file's end" WRONG "\"x\"; allowed: 5 +.", 0},
    {"CE", 6, "5+x",
     "the account file's end" WRONG "\"x\"; allowed: 5 + or 5+.", 0},
};

static void early_ends(unsigned sheet)
{
    words("an early end", sheet, "",
          "Line 1, byte 0, the line: another line is due (3); found the end of"
          " the file; allowed: a first line, UHL1.\n");
    const char *file = sheet == C ? "UHL1\r" : FIRST_58 "\r";
    says_on("an early end", sheet, TODAY, file,
            "the line: another line is due (3); found the end of the file;"
            " allowed: an account file, 1.");
    /* A field that the file ends in is no early end. */
    file = sheet == C ? "UHL1\n1 1501 " : FIRST_58 "\n1 1501 ";
    says_on("not an early end", sheet, TODAY, file,
            "the number" WRONG "nothing; allowed: six digits.");
}

static void numbers_of_k(void)
{
    says_on("90", K, TODAY,
            FRAME(K, .first = "UHL1010118" NAME "1234567890007006"),
            "the interval's end: the interval or the number is not allowed (9);"
            " found \"006\"; allowed: 007 to 999.");
    says_on("91", K, TODAY,
            FRAME(K, .first = "UHL1010118" NAME "1234567890007070"),
            "the number: the interval or the number is not allowed (9); found"
            " \"000000\"; allowed: first three digits 007 to 070.");
    says_on("92", K, TODAY, FRAME(K, .end = "5 +\n1 1501 000999"),
            "the number: the interval or the number is not allowed (9); found"
            " \"000999\"; allowed: first three digits that no account file"
            " before has.");
    says_on("101", K, TODAY,
            FRAME(K, .item = "705 99999999999999 0 03000000\n" ITEM),
            "the total: the total is not the sum (10); found \"5001\"; allowed:"
            " a sum of at most 99999999999999.");
}

static void collections(unsigned sheet)
{
#define COLLECT(day, item_)                                                 \
    FRAME(sheet, .file = "1 1502 000000 0300", .group = "2 19-19 5001 " day, \
          .item = item_)
#define NOT_ALLOWED "the bank field: the day is not allowed (11); found "
    says_on("113, own bank", sheet, TODAY, COLLECT("311217", ITEM),
            NOT_ALLOWED "\"03000558\"; allowed: from 2018-01-01 on.");
    says_on("113, another", sheet, 20180102,
            COLLECT("020118", "705 5001 42 08000558"),
            NOT_ALLOWED "\"08000558\"; allowed: after 2018-01-02.");
    says_on("114", sheet, 20180131, COLLECT("010318", ITEM),
            NOT_ALLOWED
            "\"03000558\"; allowed: at most one month after 2018-01-31.");
    says_on("110", sheet, TODAY, COLLECT("310218", ITEM),
            "the due date: the day is not allowed (11); found \"310218\";"
            " allowed: a real day of 2000 to 2099.");
}

/* ---- 15 ---- */

static char large[100100 * 17];

static char *put_times(char *at, const char *text, int times)
{
    for (int i = 0; i < times; i++)
        at += sprintf(at, "%s", text);
    return at;
}

static void too_many(void)
{
    char *at = large + sprintf(large, "UHL1\n");
    at = put_times(at, "1 1501 000000 0300\n2 19-19 1 020118\n"
                       "19 1 0 03000000\n3 +\n5 +\n", 1000);
    sprintf(at, "1 1501 000000 0300\r\n");
    says_on("150", C, TODAY, large,
            "the line: there are too many (15); found \"1 1501 000000 0300\";"
            " allowed: at most 1000 account files.");
    at = large + sprintf(large, "UHL1\n1 1501 000000 0300\n2 19-19 1 020118\n");
    at = put_times(at, "19 1 0 03000000\n", 99999);
    sprintf(at, "x\n");
    says_on("151", C, TODAY, large,
            "the line: there are too many (15); found \"x\"; allowed: at most"
            " 99999 items in an account file.");
    at = large + sprintf(large, "%s\n1 1501 000000 0800\n2 19-19 1 020118\n",
                         FIRST_58);
    at = put_times(at, "19 1 0 03000000  \n", 1000);
    sprintf(at, "\n");
    says_on("152", S, TODAY, large,
            "the line: there are too many (15); found nothing; allowed: at most"
            " 1000 items in a file.");
}

/* ---- warnings ---- */

static void warnings(void)
{
    says_on("1010 on C", C, TODAY, FRAME(C, .group = "2 19-19 0 020118"),
            "the total: the total is not the sum of the items, 5001; found"
            " \"0\".");
    says_on("1010 on E", E, TODAY, FRAME(E, .group = "2 19-19 50,02 020118"),
            "the total: the total is not the sum of the items, 5001; found"
            " \"50,02\".");
    says_on("1011 on C", C, 20991231, PLAIN(C),
            "the due date: the day is before 2099-12-31; found \"020118\".");
    says_on("1011 on P", P, 20180103,
            FRAME(P, .group = "2 19-19 5001 20000101"),
            "the due date: the day is before 2018-01-03; found \"20000101\".");
    says_on("1014", K, TODAY, FRAME(K, .item = "705 5001 42 281000558"),
            "the bank field: priority 2 is read as 5; found \"281000558\".");
    says_on("1013", C, TODAY, FRAME(C, .item = ITEM " NP:" T35 "6"),
            "the name: cut to 35 bytes; found \"" T35 "6\".");
    words("1012: each part", C,
          FRAME(C, .item = ITEM " 1 " T35 "6|" T35 "67|" T35 "678|" T35
                                T35 T35),
          "Line 4, byte 67, message part 1: cut to 35 bytes; found \"" T35
          "6\".\n"
          "Line 4, byte 104, message part 2: cut to 35 bytes; found \"" T35
          "67\".\n"
          "Line 4, byte 142, message part 3: cut to 35 bytes; found \"" T35
          "678\".\n"
          "Line 4, byte 181, message part 4: cut to 35 bytes; found \"" T35
          "1234567890123456789012345\", the first 60 of 105 bytes.\n");
}

/* ---- quoting ---- */

/* The line behind the first, refused as a whole. */
static void quoted(const char *what, const char *line, size_t len,
                   const char *want)
{
    char file[400], sentence[700];
    memcpy(file, "UHL1\n", 5);
    memcpy(file + 5, line, len);
    find_all(what, C, TODAY, file, len + 5);
    const char *start = strchr(test_text, '\n') + 1;
    snprintf(sentence, sizeof sentence,
             "Line 2, byte 5, the line: another line is due (3); found %s;"
             " allowed: an account file, 1.\n",
             want);
    bool right = strncmp(start, sentence, strlen(sentence)) == 0;
    CHECK(what, right);
    if (!right)
        printf("  want:\n%s  got:\n%s", sentence, start);
}

#define T60 T35 "1234567890123456789012345"

static void quoting(void)
{
    quoted("60 bytes", T60, 60, "\"" T60 "\"");
    quoted("61 bytes", T60 "6", 61, "\"" T60 "\", the first 60 of 61 bytes");
    quoted("200 bytes", T60 T60 T60 T60, 200,
           "\"" T60 "\", the first 60 of 200 bytes");
    quoted("spaces", "   ", 3, "\"   \"");
    quoted("a quote", "a\"b", 3, "\"a\\x22b\"");
    quoted("a backslash", "\\x41", 4, "\"\\x5Cx41\"");
    quoted("a zero", "\0" "1", 2, "\"\\x001\"");
    quoted("both ends", "\x1f ~\x7f\x80\xff", 6, "\"\\x1F ~\\x7F\\x80\\xFF\"");
    quoted("Windows-1250", "P\xf8\xedkaz", 6, "\"P\\xF8\\xEDkaz\"");
    char escaped[300], want[300] = "\"";
    for (int i = 0; i < 61; i++)
        sprintf(escaped + i, "\xab");
    for (int i = 0; i < 60; i++)
        strcat(want, "\\xAB");
    strcat(want, "\", the first 60 of 61 bytes");
    quoted("61 escaped", escaped, 61, want);
}

/* Every byte but the line ends, alone in its line. */
static void each_byte(void)
{
    char want[10];
    for (int byte = 0; byte < 256; byte++) {
        char line = (char)byte;
        if (byte == '\n' || byte == '\r')
            continue;
        if (byte >= 32 && byte <= 126 && byte != '"' && byte != '\\')
            snprintf(want, sizeof want, "\"%c\"", byte);
        else
            snprintf(want, sizeof want, "\"\\x%02X\"", (unsigned)byte);
        quoted("each byte", &line, 1, want);
    }
}

/* ---- whole texts ---- */

static void whole(const char *what, unsigned sheet, const char *file,
                  const char *text)
{
    find_all(what, sheet, TODAY, file, strlen(file));
    CHECK(what, strcmp(test_text, text) == 0);
    if (strcmp(test_text, text) != 0)
        printf("  want:\n%s  got:\n%s", text, test_text);
}

static void whole_texts(void)
{
    static const char file[] = FIRST_58 "\n"
                               "1 1501 000000 8100\n"
                               "2 19-19 5001 020118\n" ITEM "\n"
                               "3 +\n"
                               "2 5002 020118\n"
                               "19 " ITEM "\n"
                               "3 +\n"
                               "5 +\n";
    static const char sheets[] = "Sheet K: refused (10) at line 6, byte 125.\n"
                                 "Sheet S: refused (8) at line 2, byte 73.\n"
                                 "Sheet C: accepted, warnings 1.\n"
                                 "Sheet E: refused (8) at line 2, byte 73.\n"
                                 "Sheet P: refused (8) at line 2, byte 73.\n";
    char want[1000];
    snprintf(want, sizeof want,
             "Refused on sheet K.\n"
             "Line 6, byte 125, the total: the total is not the sum (10); found"
             " \"5002\"; allowed: the sum of the items, 5001.\n%s", sheets);
    whole("a wrong total on K", K, file, want);
    snprintf(want, sizeof want,
             "Accepted on sheet C, rows 5, warnings 1.\n"
             "Line 6, byte 125, the total: the total is not the sum of the"
             " items, 5001; found \"5002\".\n%s", sheets);
    whole("a wrong total on C", C, file, want);
    snprintf(want, sizeof want,
             "Refused on sheet S.\n"
             "Line 2, byte 73, the bank: the payer's bank is not the sheet's"
             " (8); found \"8100\"; allowed: 0800.\n%s", sheets);
    whole("a wrong total on S", S, file, want);
    whole("no warnings", P, PLAIN(P),
          "Accepted on sheet P, rows 3, warnings 0.\n"
          "Sheet K: refused (8) at line 2, byte 73.\n"
          "Sheet S: refused (8) at line 2, byte 73.\n"
          "Sheet C: accepted, warnings 0.\n"
          "Sheet E: refused (8) at line 2, byte 73.\n"
          "Sheet P: accepted, warnings 0.\n");
    whole("an empty file", E, "",
          "Refused on sheet E.\n"
          "Line 1, byte 0, the line: another line is due (3); found the end of"
          " the file; allowed: a first line, UHL1.\n"
          "Sheet K: refused (3) at line 1, byte 0.\n"
          "Sheet S: refused (3) at line 1, byte 0.\n"
          "Sheet C: refused (3) at line 1, byte 0.\n"
          "Sheet E: refused (3) at line 1, byte 0.\n"
          "Sheet P: refused (3) at line 1, byte 0.\n");
}

void test_findings_text(void)
{
    SAY(lines_3);
    SAY(first_line);
    SAY(file_line);
    SAY(group_line);
    SAY(item_line);
    SAY(tails);
    SAY(closings);
    for (unsigned sheet = K; sheet <= P; sheet++)
        early_ends(sheet);
    numbers_of_k();
    collections(C);
    collections(P);
    too_many();
    warnings();
    quoting();
    each_byte();
    whole_texts();
}
