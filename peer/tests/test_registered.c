/* Reading against a day's register (request W-207), by the numbers of its
   readings. */
#include "check_register.h"

#define WILD (UINT64_C(1) << 63)
#define NARROW "UHL1010118KLIENT TEST         1234567890100199"
#define REST_OF_FILE "2 19-19 5001 020118\n705 5001 42 03000558\n3 +\n5 +"

/* Today's register with up to three numbers marked; BITS is none. */
static struct day day_with(size_t n, size_t m, size_t k)
{
    struct day d;
    size_t marks[] = {n, m, k};
    day_start(&d, TODAY);
    for (size_t i = 0; i < 3; i++)
        if (marks[i] < BITS)
            d.marked[marks[i]] = true;
    return d;
}

static struct day empty_day(void)
{
    return day_with(BITS, BITS, BITS);
}

static struct day full_day(void)
{
    struct day d = empty_day();
    memset(d.marked, true, NUMBERS);
    return d;
}

/* ---- lent bytes of all sorts ---- */

/* None of these is a sound register for TODAY. */
enum { SHORT_SORTS = 4, SORTS = 10 };

/* Puts bytes of this sort down and gives back their length. */
static size_t sort_of(size_t sort, uint8_t reg[200])
{
    static const size_t shorter[SHORT_SORTS] = {0, 8, 64, 135};
    struct day d = empty_day();
    memset(reg, 0xff, 200);
    day_spell(&d, reg);
    if (sort < SHORT_SORTS)
        return shorter[sort];
    switch (sort) {
    case 4: /* never started */
        memset(reg, 0, REGISTER);
        return REGISTER;
    case 5:
        d.date = 20180229;
        break;
    case 6:
        d.marked[1000] = true;
        break;
    case 7:
        d.marked[1023] = true;
        break;
    case 8: /* for another date */
        d.date = 20180102;
        break;
    default:
        d.date = 20171231;
        memset(d.marked, true, NUMBERS);
        day_spell(&d, reg);
        return 200;
    }
    day_spell(&d, reg);
    return REGISTER;
}

/* ---- 5 and 12: the answer ---- */

static void answer_5_12(void)
{
    struct day d = empty_day(), after = day_with(17, BITS, BITS);
    const char *file = FRAME(
        K, .file = "1 1501 017999 8100",
        .item = "705 5001 42 0103000558 17 AV:led");
    day_accepts("5: a warning is counted", &d, file, 3, 1, &after);
    struct reading r = {file, strlen(file), K, TODAY, 3 * ROW};
    uint8_t reg[REGISTER];
    day_spell(&d, reg);
    struct peer_answer a = lent_read(&r, reg, REGISTER);
    const struct peer_header *h = &a.header;
    CHECK("12: the header is returned",
          h->date == TODAY && h->client == 1234567890 && h->from == 0 &&
              h->to == 999 &&
              memcmp(h->name, "KLIENT TEST         ", 20) == 0);
    CHECK("12: nothing else is", a.line == 0 && a.byte == 0 && a.needed == 0);
}

/* The register's date is the header's and has no relation to today. */
static void today_12(void)
{
    static const uint64_t dates[] = {20000101, 20171231, 20180101, 20180102,
                                     20240229, 20991231};
    for (size_t i = 0; i < 6; i++)
        for (size_t k = 0; k < 6; k++) {
            unsigned number = 500000;
            const char *file = file_of(dates[i], 1, &number);
            struct day d, after;
            day_start(&d, dates[k]);
            after = d;
            after.marked[500] = true;
            if (i == k)
                day_accepts("12: any creation date", &d, file, 3, 0, &after);
            else
                day_refuses("7: another date", &d, file, 23, 1, 4);
        }
}

/* ---- 6: who looks at it ---- */

static void other_sheets_6(void)
{
    uint8_t reg[200];
    for (unsigned sheet = S; sheet <= P; sheet++)
        for (size_t sort = 0; sort < SORTS; sort++) {
            size_t len = sort_of(sort, reg);
            const char *file = PLAIN(sheet);
            struct reading r = {file, strlen(file), sheet, TODAY, 3 * ROW};
            struct peer_answer a = lent_read(&r, reg, len);
            CHECK("6: accepted on another sheet", a.number == 0 && a.rows == 3);
            a = lent_read(&r, reg, len);
            CHECK("6: and a second time", a.number == 0 && a.rows == 3);
            r.room--;
            a = lent_read(&r, reg, len);
            CHECK("6: 16 on another sheet", a.number == 16 && a.needed == 3);
            r.len -= 4;
            a = lent_read(&r, reg, len);
            CHECK("6: refused on another sheet", a.number == 3 && a.line == 6);
        }
}

/* A register that is full and for the very date. */
static void full_on_other_sheets_6(void)
{
    uint8_t reg[REGISTER];
    struct day d = full_day();
    day_spell(&d, reg);
    for (unsigned sheet = S; sheet <= P; sheet++) {
        const char *file = PLAIN(sheet);
        struct reading r = {file, strlen(file), sheet, TODAY, 3 * ROW};
        struct peer_answer a = lent_read(&r, reg, REGISTER);
        CHECK("6: numbers serve again on another sheet",
              a.number == 0 && day_is(&d, reg));
    }
}

static void sheet_and_today_first_6(void)
{
    static const uint64_t sheets[] = {0, 6, 7, WILD, UINT64_MAX};
    static const uint64_t days[] = {0, 20180229, 19991231, 21000101, WILD};
    uint8_t reg[200];
    const char *file = PLAIN(K);
    for (size_t sort = 0; sort < SORTS; sort++) {
        size_t len = sort_of(sort, reg);
        struct reading r = {file, strlen(file), K, TODAY, 3 * ROW};
        struct peer_answer a, want;
        for (size_t i = 0; i < 5; i++) {
            r.today = days[i];
            a = lent_read(&r, reg, len);
            want = refusal(2, 0, 0);
            CHECK("6: 2 before any look", same_answer(&a, &want));
            r.sheet = sheets[i];
            a = lent_read(&r, reg, len);
            want = refusal(1, 0, 0);
            CHECK("6: 1 before 2 and any look", same_answer(&a, &want));
            r.sheet = K;
        }
        r.today = TODAY;
        a = lent_read(&r, reg, len);
        want = refusal(23, 1, 4);
        CHECK("6: K looks", same_answer(&a, &want));
    }
}

/* ---- 2, 3 and 7: the header's date ---- */

struct fault {
    const char *file;
    uint64_t number, line;
    size_t plus;
};

/* Before the date has been passed no register is looked at. */
static void before_the_date_7(void)
{
    static const struct fault faults[] = {
        {"", 3, 1, 0},
        {"\n", 3, 1, 0},
        {"UHL", 3, 1, 0},
        {"UHL2010118KLIENT", 3, 1, 0},
        {" UHL1010118KLIENT", 3, 1, 0},
        {"1 1501 000000 8100\n", 3, 1, 0},
        {"UHL1", 4, 1, 4},
        {"UHL1\n010118", 4, 1, 4},
        {"UHL101011", 4, 1, 4},
        {"UHL101011\n8", 4, 1, 4},
        {"UHL10101x8KLIENT TEST         1234567890000999\n", 4, 1, 4},
        {"UHL1 10118KLIENT TEST         1234567890000999\n", 4, 1, 4},
        {"UHL1310218KLIENT TEST         1234567890000999\n", 11, 1, 4},
        {"UHL1000118", 11, 1, 4},
        {"UHL1290218\t", 11, 1, 4},
    };
    uint8_t reg[200];
    struct day d = empty_day(), full = full_day();
    for (size_t i = 0; i < sizeof faults / sizeof *faults; i++) {
        const struct fault *f = &faults[i];
        struct reading r = {f->file, strlen(f->file), K, TODAY, ROW};
        struct peer_answer want = refusal(f->number, f->line, f->plus);
        for (size_t sort = 0; sort < SORTS; sort++) {
            size_t len = sort_of(sort, reg);
            struct peer_answer a = lent_read(&r, reg, len);
            CHECK("7: 3, 4 and 11 before 23", same_answer(&a, &want));
        }
        day_refuses("7: 3, 4 and 11", &d, f->file, f->number, f->line, f->plus);
        day_refuses("7: 3, 4 and 11, full", &full, f->file, f->number, f->line,
                    f->plus);
    }
}

/* The file is refused as told by an empty register of its date, and by 23 by
   each other one. */
static void beaten_by_23_7(const char *file, uint64_t number, uint64_t line,
                           size_t plus)
{
    uint8_t reg[200];
    struct day d = empty_day();
    day_refuses("7: a later fault", &d, file, number, line, plus);
    for (size_t sort = 0; sort < SORTS; sort++) {
        size_t len = sort_of(sort, reg);
        struct reading r = {file, strlen(file), K, TODAY, ROW};
        struct peer_answer a = lent_read(&r, reg, len);
        struct peer_answer want = refusal(23, 1, 4);
        CHECK("7: 23 before any later fault", same_answer(&a, &want));
    }
}

static void behind_the_date_7(void)
{
    beaten_by_23_7("UHL1010118", 4, 1, 10);
    beaten_by_23_7("UHL1010118\n", 4, 1, 10);
    beaten_by_23_7(FRAME(K, .first = "UHL1010118KLIENT\tTEST"), 4, 1, 10);
    beaten_by_23_7(FRAME(K, .first = "UHL1010118KLIENT TEST         x"), 4, 1,
                   30);
    beaten_by_23_7(FRAME(K, .first = "UHL1010118KLIENT TEST         1234567890"
                                     "00x999"), 4, 1, 40);
    beaten_by_23_7(FRAME(K, .first = "UHL1010118KLIENT TEST         1234567890"
                                     "00099"), 4, 1, 43);
    beaten_by_23_7(FRAME(K, .first = "UHL1010118KLIENT TEST         1234567890"
                                     "007006"), 9, 1, 43);
    beaten_by_23_7(FRAME(K, .first = FIRST_46 "0"), 4, 1, 46);
    beaten_by_23_7(FIRST_46, 3, 2, 0);
    beaten_by_23_7(FRAME(K, .file = ""), 3, 2, 0);
    beaten_by_23_7(FRAME(K, .file = "1 1502 000000 8100"), 7, 2, 2);
    beaten_by_23_7(FRAME(K, .file = "1 1501 00000 8100"), 4, 2, 7);
    beaten_by_23_7(FRAME(K, .file = "1 1501 000000 0300"), 8, 2, 14);
    beaten_by_23_7(FRAME(K, .group = "2 19-19 5000 020118"), 10, 3, 8);
    beaten_by_23_7(FRAME(K, .group = "2 19-19 5001 311217"), 11, 3, 13);
    beaten_by_23_7(FRAME(K, .item = "706 5001 42 03000558"), 5, 4, 0);
    beaten_by_23_7(FRAME(K, .item = "705 0 42 03000558"), 6, 4, 4);
    beaten_by_23_7(FRAME(K, .item = "705 5001 42 00000558"), 12, 4, 12);
    beaten_by_23_7(FRAME(K, .item = "705 5001 42 1003000558"), 13, 4, 12);
    beaten_by_23_7(FRAME(K, .item = "705 5001 42 03000558 1 led"), 14, 4, 23);
    beaten_by_23_7(FRAME(K, .end = "5 +\n"), 3, 7, 0);
}

/* 23 before 16 and 22, with rows for nothing; 16 is the fitting register's. */
static void last_7(void)
{
    uint8_t reg[200];
    const char *file = PLAIN(K);
    struct reading r = {file, strlen(file), K, TODAY, 0};
    struct peer_answer a, want = refusal(23, 1, 4);
    for (size_t sort = 0; sort < SORTS; sort++) {
        size_t len = sort_of(sort, reg);
        a = lent_read(&r, reg, len);
        CHECK("7: 23 before 16", same_answer(&a, &want));
    }
    struct day d = full_day();
    d.date = 20180102;
    day_refuses("7: 23 before 22", &d, file, 23, 1, 4);
    d.date = TODAY;
    day_refuses("7: the same for this date", &d, file, 22, 2, 7);
}

/* The frame's number is 0; 5 is marked already. */
static void every_length_2_3(uint8_t behind)
{
    const char *file = PLAIN(K);
    struct reading r = {file, strlen(file), K, TODAY, 3 * ROW};
    struct day d = day_with(5, BITS, BITS), after = day_with(0, 5, BITS);
    struct peer_answer want = refusal(23, 1, 4);
    for (size_t len = 0; len <= 140; len++) {
        uint8_t reg[140], was[140];
        memset(reg, behind, sizeof reg);
        day_spell(&d, reg);
        memcpy(was, reg, sizeof reg);
        struct peer_answer a = lent_read(&r, reg, len);
        if (len < REGISTER) {
            CHECK("2: fewer than 136 bytes", same_answer(&a, &want));
            continue;
        }
        CHECK("3: 136 bytes or more", a.number == 0 && a.rows == 3);
        CHECK("11: the number is marked", day_is(&after, reg));
        CHECK("3: later bytes stay",
              memcmp(reg + REGISTER, was + REGISTER, 4) == 0);
    }
}

static void malformed_2(void)
{
    static const uint64_t unreal[] = {0, 20180229, 19991231, 21000101, 20180100,
                                      TODAY + (UINT64_C(1) << 32), WILD};
    struct day d;
    for (size_t n = NUMBERS; n < BITS; n++) {
        d = day_with(n, BITS, BITS);
        day_refuses("2: one of the 24 bits", &d, PLAIN(K), 23, 1, 4);
        d = full_day();
        d.marked[n] = true;
        day_refuses("2: one of the 24 bits, full", &d, PLAIN(K), 23, 1, 4);
    }
    for (size_t i = 0; i < sizeof unreal / sizeof *unreal; i++) {
        day_start(&d, unreal[i]);
        day_refuses("2: a date that is no day", &d, PLAIN(K), 23, 1, 4);
    }
}

/* ---- 8: the number field ---- */

static void number_8(void)
{
    struct day empty = empty_day(), used = day_with(42, BITS, BITS);
    struct day after = day_with(42, BITS, BITS);
    static const char *const spelled[] = {
        "1 1501 042000 8100", "1 1501 042001 8100", "1 1501 042999 8100"};
    for (size_t i = 0; i < 3; i++) {
        const char *file = FRAME(K, .file = spelled[i]);
        day_refuses("8: its first three digits are used", &used, file, 22, 2,
                    7);
        day_accepts("8: they are not", &empty, file, 3, 0, &after);
    }
    after = day_with(42, 41, BITS);
    day_accepts("8: the other three do not count", &used,
                FRAME(K, .file = "1 1501 041042 8100"), 3, 0, &after);
    after = day_with(42, 0, BITS);
    day_accepts("8: nor alone", &used, FRAME(K, .file = "1 1501 000042 8100"),
                3, 0, &after);
}

/* One line with a used number, which is 42 or else none.  In the field 4 and 9
   come first, in front of it 4 and 7, and all behind it later. */
static void order_8(void)
{
    static const struct {
        const char *line;
        uint64_t empty_number;
        size_t empty_plus;
        uint64_t used_number;
        size_t used_plus;
    } cases[] = {
        {"1 1501 042000", 4, 13, 22, 7},       /* no divider behind it */
        {"1 1501 042000 ", 4, 14, 22, 7},      /* an empty BANK */
        {"1 1501 042000  8100", 4, 14, 22, 7}, /* one space too many */
        {"1 1501 042000 810", 4, 14, 22, 7},
        {"1 1501 042000 81x0", 4, 14, 22, 7},
        {"1 1501 042000 0300", 8, 14, 22, 7},
        {"1 1501 042000 8100 ", 4, 18, 22, 7},
        {"1 1501 04200 8100", 4, 7, 4, 7},
        {"1 1501 0420000 8100", 4, 7, 4, 7},
        {"1 1501 04200x 8100", 4, 7, 4, 7},
        {"1 1501 042", 4, 7, 4, 7},
        {"1 1501 ", 4, 7, 4, 7},
        {"1 1501  042000 8100", 4, 7, 4, 7},
        {"1 1501", 4, 6, 4, 6},
        {"1 1502 042000 8100", 7, 2, 7, 2},
        {"1 150 042000 8100", 4, 2, 4, 2},
        {"1 042000 8100", 4, 2, 4, 2},
    };
    struct day empty = empty_day(), used = day_with(42, BITS, BITS);
    for (size_t i = 0; i < sizeof cases / sizeof *cases; i++) {
        const char *file = FRAME(K, .file = cases[i].line);
        day_refuses("8: unused", &empty, file, cases[i].empty_number, 2,
                    cases[i].empty_plus);
        day_refuses("8: used", &used, file, cases[i].used_number, 2,
                    cases[i].used_plus);
    }
    day_refuses("8: used, at the file's end", &used,
                FIRST_46 "\n1 1501 042999", 22, 2, 7);
    day_refuses("8: unused, at the file's end", &empty,
                FIRST_46 "\n1 1501 042999", 4, 2, 13);
}

/* An interval of 100 to 199. */
static void outside_8(void)
{
    struct day full = full_day(), empty = empty_day(), after;
    day_refuses("8: outside and used is 9", &full,
                FRAME(K, .first = NARROW, .file = "1 1501 099000 8100"), 9, 2,
                7);
    day_refuses("8: outside and used is 9", &full,
                FRAME(K, .first = NARROW, .file = "1 1501 200000 0300"), 9, 2,
                7);
    day_refuses("8: outside and unused is 9", &empty,
                FRAME(K, .first = NARROW, .file = "1 1501 200000 8100"), 9, 2,
                7);
    day_refuses("8: inside and used", &full,
                FRAME(K, .first = NARROW, .file = "1 1501 100000 0300"), 22, 2,
                7);
    day_refuses("8: inside and used", &full,
                FRAME(K, .first = NARROW, .file = "1 1501 199999 8100"), 22, 2,
                7);
    after = day_with(199, BITS, BITS);
    day_accepts("8: inside and unused", &empty,
                FRAME(K, .first = NARROW, .file = "1 1501 199999 8100"), 3, 0,
                &after);
}

/* Account file i, from 0, is at line 2 + 5 * i. */
static void repeated_8(void)
{
    struct day empty = empty_day();
    struct day seven = day_with(7, BITS, BITS);
    day_refuses("8: repeated and unused is 9 at its second place", &empty,
                FILE_OF(7000, 8000, 7001), 9, 12, 7);
    day_refuses("8: repeated and used is 22 at its first place", &seven,
                FILE_OF(7000, 8000, 7001), 22, 2, 7);
    day_refuses("8: also in the middle", &seven,
                FILE_OF(6000, 7000, 8000, 7001), 22, 7, 7);
    day_refuses("8: repeated before a used one", &seven,
                FILE_OF(6000, 6001, 7000), 9, 7, 7);
    day_refuses("8: a used one before a repeated one", &seven,
                FILE_OF(6000, 7000, 6001), 22, 7, 7);
    struct day two = day_with(7, 9, BITS);
    day_refuses("8: the first of two in the file", &two,
                FILE_OF(8000, 9000, 7000), 22, 7, 7);
    day_refuses("8: the first of two in the file", &two,
                FILE_OF(8000, 7000, 9000), 22, 7, 7);
}

/* Interval 000 to 500 with 600 outside of it, 7 used, 6 twice. */
static void at_once_8(void)
{
    struct day d = day_with(7, 600, BITS);
    static const struct {
        unsigned numbers[4];
        uint64_t number, line;
    } cases[] = {
        {{6000, 6001, 7000, 600000}, 9, 7},
        {{6000, 7000, 6001, 600000}, 22, 7},
        {{6000, 600000, 7000, 6001}, 9, 7},
        {{7000, 6000, 6001, 600000}, 22, 2},
        {{600000, 7000, 6000, 6001}, 9, 2},
        {{6000, 5000, 4000, 7999}, 22, 17},
        {{6000, 5000, 4000, 600000}, 9, 17},
        {{6000, 5000, 4000, 6999}, 9, 17},
    };
    for (size_t i = 0; i < sizeof cases / sizeof *cases; i++) {
        static char file[1000];
        strcpy(file, file_of(TODAY, 4, cases[i].numbers));
        memcpy(file + 43, "500", 3);
        day_refuses("8: repeated, used and outside at once", &d, file,
                    cases[i].number, cases[i].line, 7);
    }
}

/* ---- 9: among the other refusals ---- */

static void order_9(void)
{
    struct day used = day_with(1, BITS, BITS), empty = empty_day();
    const char *second = "5 +\n1 1501 001000 8100\n" REST_OF_FILE;
    day_refuses("9: 22 in a second account file", &used,
                FRAME(K, .end = second), 22, 7, 7);
    day_refuses("9: 10 of an earlier group", &used,
                FRAME(K, .group = "2 19-19 5002 020118", .end = second), 10, 3,
                8);
    day_refuses("9: 5 of an earlier item", &used,
                FRAME(K, .item = "706 5001 42 03000558", .end = second), 5, 4,
                0);
    day_refuses("9: 4 of an earlier closing line", &used,
                FRAME(K, .close = "3+", .end = second), 4, 5, 1);
    day_refuses("9: 3 for an earlier line", &used,
                FRAME(K, .end = "1 1501 001000 8100\n" REST_OF_FILE), 3, 6, 0);
    const char *late =
        "5 +\n1 1501 001000 8100\n2 19-19 5002 020118\n"
        "705 5001 42 03000558\n3 +\n5 +";
    day_refuses("9: before 10 of its own group", &used, FRAME(K, .end = late),
                22, 7, 7);
    day_refuses("9: which is 10 else", &empty, FRAME(K, .end = late), 10, 8, 8);
    day_refuses("9: before an early end", &used,
                FRAME(K, .end = "5 +\n1 1501 001000 8100"), 22, 7, 7);
    day_refuses("9: a line that is not due comes first", &used,
                FRAME(K, .end = "5 +\n\n1 1501 001000 8100"), 3, 7, 0);
}

/* Numbers 000 to 999 in this order, and one account file too many. */
static void many_files_9(void)
{
    static unsigned numbers[1001];
    static char more[120000];
    struct day empty = empty_day(), full = full_day(), d;
    for (unsigned i = 0; i <= 1000; i++)
        numbers[i] = i % 1000 * 1000 + i % 7;
    const char *file = file_of(TODAY, 1000, numbers);
    day_accepts("11: all numbers in one file", &empty, file, 3000, 0, &full);
    day_keeps("11: then none is free", LOWEST, 0, &full, 0, 1000);
    d = day_with(999, BITS, BITS);
    day_refuses("9: the last of all is used", &d, file, 22, 2 + 5 * 999, 7);
    d = day_with(500, 501, 999);
    day_refuses("9: the first that is used", &d, file, 22, 2 + 5 * 500, 7);
    strcpy(more, file_of(TODAY, 1001, numbers));
    day_refuses("9: account file 1,001 is 15", &empty, more, 15, 5002, 0);
    day_refuses("9: 22 before it", &d, more, 22, 2 + 5 * 500, 7);
}

/* ---- 10: 16 is last ---- */

static void room_10(void)
{
    const char *file = FILE_OF(5000, 6000);
    struct day d = day_with(7, BITS, BITS), after = day_with(5, 6, 7);
    struct peer_answer a, want = refusal(16, 0, 0);
    uint8_t reg[REGISTER];
    want.needed = 6;
    day_spell(&d, reg);
    for (size_t room = 0; room < 6 * ROW; room += 1 + room % 101) {
        struct reading r = {file, strlen(file), K, TODAY, room};
        a = lent_read(&r, reg, REGISTER);
        CHECK("10: 16 and the rows needed", same_answer(&a, &want));
        CHECK("10: 16 marks nothing", day_is(&d, reg));
    }
    struct reading r = {file, strlen(file), K, TODAY, 6 * ROW};
    a = lent_read(&r, reg, REGISTER);
    CHECK("10: accepted with more rows", a.number == 0 && a.rows == 6);
    CHECK("10: and marked then", day_is(&after, reg));
    r.room = 0;
    a = lent_read(&r, reg, REGISTER);
    want = refusal(22, 2, offset_of(file, r.len, 2, 7));
    CHECK("10: 22 before 16", same_answer(&a, &want));
}

/* ---- 11: marks ---- */

static void marks_11(void)
{
    struct day d = day_with(0, 500, 999), after = d;
    after.marked[1] = after.marked[499] = after.marked[998] = true;
    day_accepts("11: exactly the batch's numbers", &d,
                FILE_OF(998999, 1000, 499500), 9, 0, &after);
    for (unsigned n = 0; n < NUMBERS; n++) {
        unsigned number = n * 1000 + (n * 7 + 3) % 1000;
        d = empty_day();
        after = day_with(n, BITS, BITS);
        day_accepts("11: one number into an empty register", &d,
                    FILE_OF(number), 3, 0, &after);
        day_refuses("11: which is used then", &after, FILE_OF(number), 22, 2,
                    7);
        d = full_day();
        d.marked[n] = false;
        after = full_day();
        day_accepts("11: the last number that is free", &d, FILE_OF(number), 3,
                    0, &after);
    }
}

/* A later fault marks nothing of the account files before it: the helpers want
   every byte kept. */
static void refused_11(void)
{
    struct day d = day_with(900, BITS, BITS);
    day_refuses("11: 22 in the third account file", &d,
                FILE_OF(1000, 2000, 900000), 22, 12, 7);
    day_refuses("11: 9 in the third account file", &d,
                FILE_OF(1000, 2000, 2000), 9, 12, 7);
    static char file[1000];
    strcpy(file, FILE_OF(1000, 2000));
    strcat(file, "\n");
    day_refuses("11: 3 behind the last line", &d, file, 3, 12, 0);
}

/* ---- 13: the other calls ---- */

static void others_13(void)
{
    static const char said[] = "accepted rows 3 warnings 0\n";
    const uint8_t *file = (const uint8_t *)PLAIN(K);
    size_t len = strlen((const char *)file);
    uint8_t out[2000], in[1000];
    struct day full = full_day();
    day_refuses("13: reading refuses it", &full, (const char *)file, 22, 2, 7);
    struct peer_text t = peer_explain(file, len, K, TODAY, out, sizeof out);
    CHECK("13: explaining says what reading would answer",
          t.number == 0 && t.bytes == sizeof said - 1 &&
              memcmp(out, said, sizeof said - 1) == 0);
    struct peer_list l = peer_findings(file, len, K, TODAY, out, sizeof out);
    CHECK("13: nothing is found", l.number == 0 && l.refused == 0 &&
                                      l.count == 0 && (l.sheets & 1) == 1);
    memcpy(in, "K 010118\n", 9);
    memcpy(in + 9, file, len);
    t = peer_rewrite(in, len + 9, out, sizeof out);
    CHECK("13: it is rewritten",
          t.number == 0 && memcmp(out, "UHL1010118", 10) == 0);
}

/* The office marks a number by reading the file that it has written. */
static void written_13(void)
{
    static struct batch_in b;
    static char file[1000];
    struct day d = day_with(3, BITS, BITS), after = day_with(0, 3, BITS);
    batch_start(&b);
    for (int times = 0; times < 2; times++) {
        struct peer_written w = batch_write(&b, K, TODAY, sizeof file - 1);
        CHECK("13: written as often as one likes", w.number == 0);
        if (w.number != 0)
            return;
        memcpy(file, test_out, (size_t)w.bytes);
        file[w.bytes] = 0;
    }
    day_accepts("13: marked by reading", &d, file, 3, 0, &after);
    day_refuses("13: and then used", &after, file, 22, 2, 7);
}

/* ---- 16: given back ---- */

static void given_back_16(void)
{
    uint8_t reg[REGISTER];
    const char *file = FILE_OF(40000, 30000, 20000);
    struct reading r = {file, strlen(file), K, TODAY, 9 * ROW};
    uint64_t at = offset_of(file, r.len, 2, 7);
    struct peer_answer a, used = refusal(22, 2, at);
    struct day d = day_with(20, 30, 40);
    CHECK("16: started", lent_call(START, TODAY, reg, REGISTER).number == 0);
    a = lent_read(&r, reg, REGISTER);
    CHECK("16: accepted", a.number == 0 && a.rows == 9 && day_is(&d, reg));
    call_keeps("16: three are taken", FREE, 0, reg, REGISTER, 0, 997);
    a = lent_read(&r, reg, REGISTER);
    CHECK("16: a second time 22, at the first account file",
          same_answer(&a, &used));
    CHECK("16: 40 is given back",
          lent_call(GIVE_BACK, 40, reg, REGISTER).number == 0);
    a = lent_read(&r, reg, REGISTER);
    used = refusal(22, 7, offset_of(file, r.len, 7, 7));
    CHECK("16: now 22 at the second", same_answer(&a, &used));
    CHECK("16: 30 and 20 are given back",
          lent_call(GIVE_BACK, 30, reg, REGISTER).number == 0 &&
              lent_call(GIVE_BACK, 20, reg, REGISTER).number == 0);
    a = lent_read(&r, reg, REGISTER);
    CHECK("16: accepted again", a.number == 0 && a.rows == 9 &&
                                    day_is(&d, reg));
    CHECK("16: the same date is started again",
          lent_call(START, TODAY, reg, REGISTER).number == 0);
    a = lent_read(&r, reg, REGISTER);
    CHECK("16: accepted in an emptied one",
          a.number == 0 && a.rows == 9 && day_is(&d, reg));
    CHECK("16: the next day is started",
          lent_call(START, 20180102, reg, REGISTER).number == 0);
    a = lent_read(&r, reg, REGISTER);
    used = refusal(23, 1, 4);
    CHECK("16: which is not the file's", same_answer(&a, &used));
}

/* 15: the lowest number does not look at an interval: it may be 9 there. */
static void lowest_15(void)
{
    struct day d = day_with(0, 1, 3);
    day_keeps("15: the lowest of all", LOWEST, 0, &d, 0, 2);
    day_refuses("15: outside an interval", &d,
                FRAME(K, .first = NARROW, .file = "1 1501 002000 8100"), 9, 2,
                7);
}

void test_registered(void)
{
    answer_5_12();
    today_12();
    other_sheets_6();
    full_on_other_sheets_6();
    sheet_and_today_first_6();
    before_the_date_7();
    behind_the_date_7();
    last_7();
    every_length_2_3(0x00);
    every_length_2_3(0xff);
    malformed_2();
    number_8();
    order_8();
    outside_8();
    repeated_8();
    at_once_8();
    order_9();
    many_files_9();
    room_10();
    marks_11();
    refused_11();
    others_13();
    written_13();
    given_back_16();
    lowest_15();
}
