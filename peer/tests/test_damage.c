/* One file of K with two account files, damaged in forty ways: each time the
   finding and its sentence. */
#include "check_findings.h"

#define FIRST "UHL1010118KLIENT TEST         1234567890020050000000000000"
#define T35 "12345678901234567890123456789012345"

enum { LINES = 15 };

static const char *const lines[LINES] = {
    FIRST,
    "1 1501 020001 8100",
    "2 19-19 15003 020118",
    "705 5001 42 03000558",
    "5152046 10002 7 0781000558 17 AV:prvni cast|druha",
    "3 +",
    "2 5001 311218",
    "174-1999738514 500005-2267100237 5001 1 08000308 2 AV:x",
    "3 +",
    "5 +",
    "1 1501 021000 8100",
    "2 00 1 010118",
    "19 705 1 0 0181000558",
    "3 +",
    "5 +",
};

/* The line replaced and what by; NULL ends the file there.  The finding's place
   is given inside its line; the words stand behind the place. */
static const struct damage {
    unsigned line;
    const char *text;
    unsigned number, cause, at_line;
    size_t plus;
    unsigned length, field;
    uint64_t least, most;
    const char *words;
} damages[] = {
    {1, "UHL2", 3, 30, 1, 0, 4, 0, 0, 0,
     "the line: another line is due (3); found \"UHL2\"; allowed: a first line,"
     " UHL1."},
    {1, "UHL1310218", 11, 110, 1, 4, 6, 1, 20000101, 20991231,
     "the creation date: the day is not allowed (11); found \"310218\"; allowed:"
     " a real day of 2000 to 2099."},
    {1, "UHL1010118KLIENT", 4, 40, 1, 10, 6, 2, 0, 0,
     "the name: the field is not spelled as it must be (4); found \"KLIENT\";"
     " allowed: 20 bytes of text."},
    {1, "UHL1010118KLIENT TEST         123456789x020050", 4, 40, 1, 30, 10, 3,
     0, 0,
     "the client number: the field is not spelled as it must be (4); found"
     " \"123456789x\"; allowed: ten digits."},
    {1, "UHL1010118KLIENT TEST         1234567890050020", 9, 90, 1, 43, 3, 5, 50,
     999,
     "the interval's end: the interval or the number is not allowed (9); found"
     " \"020\"; allowed: 050 to 999."},
    {1, "UHL1010118KLIENT TEST         12345678900200500", 4, 40, 1, 46, 1, 6, 0,
     0,
     "the rest: the field is not spelled as it must be (4); found \"0\"; allowed:"
     " 0 or 6 or 12 bytes of text."},
    {2, NULL, 3, 31, 2, 0, 0, 0, 0, 0,
     "the line: another line is due (3); found the end of the file; allowed: an"
     " account file, 1."},
    {2, "1 1501 020001 8100 ", 4, 42, 2, 18, 1, 12, 0, 0,
     "the bank: the field is not spelled as it must be (4); found \" \"; allowed:"
     " the end of the line."},
    {2, "1 1501", 4, 41, 2, 6, 0, 11, 0, 0,
     "the number: the field is not spelled as it must be (4); found nothing;"
     " allowed: a space and the number behind it."},
    {2, "1 1502 020001 8100", 7, 70, 2, 2, 4, 10, 1501, 1501,
     "the kind: the kind is not on the sheet (7); found \"1502\"; allowed:"
     " 1501."},
    {2, "1 1501 019999 8100", 9, 91, 2, 7, 6, 11, 20, 50,
     "the number: the interval or the number is not allowed (9); found"
     " \"019999\"; allowed: first three digits 020 to 050."},
    {2, "1 1501 020001 0300", 8, 80, 2, 14, 4, 12, 8100, 8100,
     "the bank: the payer's bank is not the sheet's (8); found \"0300\"; allowed:"
     " 8100."},
    {3, "3 +", 3, 32, 3, 0, 3, 0, 0, 0,
     "the line: another line is due (3); found \"3 +\"; allowed: a group, 2."},
    {3, "2 19-9 15003 020118", 4, 40, 3, 2, 4, 20, 0, 0,
     "the payer's account: the field is not spelled as it must be (4); found"
     " \"19-9\"; allowed: 2 to 10 digits, or 1 to 6 digits, a dash and 2 to 10"
     " digits; zeros alone for a single group."},
    {3, "2 18-19 15003 020118", 5, 50, 3, 2, 5, 20, 0, 0,
     "the payer's account: the account is not valid (5); found \"18-19\";"
     " allowed: a prefix whose weighted digits add up to a multiple of 11."},
    {3, "2 19-19 15004 020118", 10, 100, 3, 8, 5, 21, 15003, 15003,
     "the total: the total is not the sum (10); found \"15004\"; allowed: the sum"
     " of the items, 15003."},
    {3, "2 19-19 150,03 020118", 4, 40, 3, 8, 6, 21, 0, 0,
     "the total: the field is not spelled as it must be (4); found \"150,03\";"
     " allowed: 1 to 14 digits."},
    {3, "2 19-19 15003 20180102", 4, 40, 3, 14, 8, 22, 0, 0,
     "the due date: the field is not spelled as it must be (4); found"
     " \"20180102\"; allowed: six digits, DDMMRR."},
    {3, "2 19-19 15003 311217", 11, 111, 3, 14, 6, 22, 20180101, 364,
     "the due date: the day is not allowed (11); found \"311217\"; allowed: from"
     " 2018-01-01 on."},
    {4, "705 0 42 03000558", 6, 60, 4, 4, 1, 32, 1, UINT64_C(99999999999999),
     "the amount: the amount is not allowed (6); found \"0\"; allowed: 1 to"
     " 99999999999999."},
    {4, "705 5001 42x 03000558", 4, 40, 4, 9, 3, 33, 0, 0,
     "the variable symbol: the field is not spelled as it must be (4); found"
     " \"42x\"; allowed: 1 to 10 digits."},
    {4, "705 5001 42 00000558", 12, 120, 4, 12, 8, 34, 1, 9999,
     "the bank field: the payee's bank is 0000 (12); found \"00000558\"; allowed:"
     " 0001 to 9999."},
    {4, "\xe1\"\\", 4, 40, 4, 0, 3, 31, 0, 0,
     "the payee's account: the field is not spelled as it must be (4); found"
     " \"\\xE1\\x22\\x5C\"; allowed: 2 to 10 digits, or 1 to 6 digits, a dash and"
     " 2 to 10 digits."},
    {5, "5152046 10002 7 1081000558 17", 13, 131, 5, 16, 10, 34, 0, 0,
     "the bank field: a leading digit is not allowed (13); found"
     " \"1081000558\"; allowed: 0 as the tenth digit from the right."},
    {5, "5152047 10002 7 0781000558", 5, 51, 5, 0, 7, 31, 0, 0,
     "the payee's account: the account is not valid (5); found \"5152047\";"
     " allowed: a base whose weighted digits add up to a multiple of 11."},
    {5, "5152046 10002 7 0781000558 AV:prvni cast", 4, 40, 5, 27, 8, 35, 0, 0,
     "the specific symbol: the field is not spelled as it must be (4); found"
     " \"AV:prvni\"; allowed: 1 to 10 digits."},
    {5, "5152046 10002 7 0781000558 17 prvni cast", 14, 140, 5, 30, 10, 36, 4,
     35,
     "the text: the text breaks the sheet (14); found \"prvni cast\"; allowed: a"
     " text that begins with AV:."},
    {5, "5152046 10002 7 0781000558 17 AV:a|b|c|d|e", 14, 141, 5, 30, 12, 36, 4,
     35,
     "the text: the text breaks the sheet (14); found \"AV:a|b|c|d|e\"; allowed:"
     " at most 4 parts."},
    {5, "5152046 10002 7 0781000558 17 AV:|" T35 "67890123456789012345", 14, 142,
     5, 30, 59, 36, 4, 35,
     "the text: the text breaks the sheet (14); found \"AV:|" T35
     "67890123456789012345\"; allowed: at most 35 bytes in a part."},
    {5, "5152046 10002 7 0781000558 17 AV:pr\x1bvni", 4, 40, 5, 30, 9, 36, 0, 0,
     "the text: the field is not spelled as it must be (4); found"
     " \"AV:pr\\x1Bvni\"; allowed: text bytes, 32 to 255 but 127, one or more, the"
     " first no space."},
    {6, "3+", 4, 43, 6, 1, 1, 50, 0, 0,
     "the group's end: the field is not spelled as it must be (4); found \"+\";"
     " allowed: 3 +."},
    {6, "5 +", 3, 34, 6, 0, 3, 0, 0, 0,
     "the line: another line is due (3); found \"5 +\"; allowed: an item or the"
     " group's end, 3 +."},
    {7, "2 5001 010119", 11, 112, 7, 7, 6, 22, 20180101, 364,
     "the due date: the day is not allowed (11); found \"010119\"; allowed: at"
     " most 364 days after 2018-01-01."},
    {8, "3 +", 3, 33, 8, 0, 3, 0, 0, 0,
     "the line: another line is due (3); found \"3 +\"; allowed: an item."},
    {8, "174-00 500005-2267100237 5001", 5, 52, 8, 0, 6, 30, 0, 0,
     "the payer's account: the account is not valid (5); found \"174-00\";"
     " allowed: a base with two digits or more that are not zero."},
    {8, "174-1999738514", 4, 41, 8, 14, 0, 31, 0, 0,
     "the payee's account: the field is not spelled as it must be (4); found"
     " nothing; allowed: a space and the payee's account behind it."},
    {10, "705 5001 42 03000558", 3, 35, 10, 0, 20, 0, 0, 0,
     "the line: another line is due (3); found \"705 5001 42 03000558\"; allowed:"
     " a group, 2, or the account file's end, 5 +."},
    {10, "5 +5", 4, 43, 10, 3, 1, 51, 0, 0,
     "the account file's end: the field is not spelled as it must be (4); found"
     " \"5\"; allowed: 5 +."},
    {11, "1 1501 020999 8100", 9, 92, 11, 7, 6, 11, 20, 50,
     "the number: the interval or the number is not allowed (9); found"
     " \"020999\"; allowed: first three digits that no account file before"
     " has."},
    {15, "5 +\n", 3, 36, 16, 0, 0, 0, 0, 0,
     "the line: another line is due (3); found nothing; allowed: an account"
     " file, 1, or the end of the file."},
};

static const char *damaged(const struct damage *d)
{
    static char file[2000];
    char *at = file;
    *at = 0;
    for (unsigned line = 1; line <= LINES; line++) {
        const char *text = lines[line - 1];
        if (line == d->line)
            text = d->text;
        if (text == NULL)
            break;
        at += sprintf(at, "%s\r\n", text);
    }
    return file;
}

void test_damage(void)
{
    static const struct found warning = {0, 1014, 13, 11, 10, 34, 1, 5};
    const size_t count = sizeof damages / sizeof *damages;
    char sentence[700];
    const char *file = damaged(&(struct damage){.line = 0});
    warns("damage: none", K, file, 1, &warning);
    CHECK("damage: forty ways", count == 40);
    for (const struct damage *d = damages; d < damages + count; d++) {
        file = damaged(d);
        finds(d->words, K, file, d->number, d->cause, d->at_line, d->plus,
              d->length, d->field, d->least, d->most);
        snprintf(sentence, sizeof sentence, "Line %u, byte %d, %s\n", d->at_line,
                 (int)offset_of(file, strlen(file), d->at_line, d->plus),
                 d->words);
        words(d->words, K, file, sentence);
    }
}
