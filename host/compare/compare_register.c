/*
 * The five calls that take a register of a day's numbers against the second
 * program's, and against what plain C makes of reading without one and of a
 * look at each number (register_laws.h): on generated files and registers, on
 * every way in which lent bytes are no register, every number and every day, and
 * on the files with the most numbers.
 *
 *   compare_register [FILES [SEED [STEP]]]     as seeds.h says
 */
#include <stdio.h>
#include <string.h>

#include "../call/call_made.h"
#include "../call/show.h"
#include "../generate/days.h"
#include "../generate/large.h"
#include "../generate/numbered.h"
#include "../generate/plain.h"
#include "../generate/seeds.h"
#include "../generate/wild.h"
#include "ask_register.h"
#include "register_laws.h"

enum { ENOUGH = 20000, ALL = ABO_REGISTER_NUMBERS, BYTES = ABO_REGISTER_BYTES };

static struct left ask_read(const char *what, uint64_t seed,
                            const struct call *c, size_t room)
{
    struct left left = ask_register(what, seed, c, room);
    check_reading(what, seed, c, room, &left);
    return left;
}

/* None, then too little, plenty and exact if the file asks for rows, else any.
   Gives back the last number. */
static uint64_t compare_file(const char *what, uint64_t seed,
                             const struct made *made, const struct text *reg)
{
    struct dice d = {~seed};
    struct call c = call_of_registered(made, reg);
    struct left left = ask_read(what, seed, &c, 0);
    if (left.answer.number != ABO_NO_ROOM)
        return ask_read(what, seed, &c, below(&d, 1000)).answer.number;
    size_t exact = (size_t)left.answer.needed;
    size_t less[] = {exact - 1, exact - ABO_ROW_BYTES, below(&d, exact)};
    ask_read(what, seed, &c, PICK(&d, less));
    if (one_in(&d, 2))
        exact += between(&d, 1, 2 * ABO_ROW_BYTES);
    left = ask_read(what, seed, &c, exact);
    if (left.answer.number == ABO_ACCEPTED && c.sheet == ABO_SHEET_K)
        check_again(what, seed, &c, exact, &left);
    return left.answer.number;
}

static uint64_t compare_call(const char *what, uint64_t seed,
                             const struct call *c)
{
    struct left left = ask_register(what, seed, c, 0);
    check_register(what, seed, c, &left);
    return left.answer.number;
}

/* What is asked of a register, and what changes it. */
static void compare_calls(const char *what, uint64_t seed,
                          const struct text *reg, uint64_t date, uint64_t given)
{
    for (enum which which = STARTS; which <= GIVES_BACK; which++) {
        struct call c = call_of_register(which, reg);
        c.date = date;
        c.given = given;
        compare_call(what, seed, &c);
    }
}

/* ---- generated ---- */

static void compare_generated(struct seeds seeds)
{
    struct made made = {0};
    struct text reg = {0};
    for (uint64_t i = 0; i < seeds.count; i++) {
        uint64_t seed = seeds.first + i;
        struct dice d = {seed ^ UINT64_C(0x5bd1e995)};
        generate_for_register(&made, seed);
        draw_register(&reg, &d, &made.file);
        compare_file("generated file", seed, &made, &reg);
        uint64_t date = draw_date(&d), given = draw_given(&d, &reg);
        compare_calls("drawn register", seed, &reg, date, given);
    }
    text_free(&made.file);
    text_free(&reg);
}

/* ---- the order of faults, by hand ---- */

#define HEAD "UHL1010118FIRMA               1234567890100199\n"
#define GROUP "2 19 1 020118\n19 1 0 03000558\n3 +\n"
#define FILE_OF(number) "1 1501 " number "000 8100\n" GROUP "5 +\n"

/* A file of K, one number that is marked on its day, and the answer; against a
   register of another date it is the second one. */
static const struct {
    const char *file;
    unsigned marked;
    uint64_t number, on_other;
} orders[] = {
    {HEAD FILE_OF("100"), 101, 0, 23},
    {HEAD FILE_OF("100"), 100, 22, 23},
    {HEAD FILE_OF("100") FILE_OF("101"), 101, 22, 23},
    /* 9 comes before 22 at one number, but one number before the next */
    {HEAD FILE_OF("200"), 200, 9, 23},
    {HEAD FILE_OF("100") FILE_OF("100"), 101, 9, 23},
    {HEAD FILE_OF("100") FILE_OF("100"), 100, 22, 23},
    {HEAD FILE_OF("100") FILE_OF("200"), 100, 22, 23},
    /* what stands before the number, and behind it */
    {HEAD "1 1505 100000 8100\n", 100, 7, 23},
    {HEAD "1 1501 10000 8100\n", 100, 4, 23},
    {HEAD "1 1501 100000  8100\n", 100, 22, 23},
    {HEAD "1 1501 100000 0300\n", 100, 22, 23},
    {HEAD "1 1501 100000", 100, 22, 23},
    /* an earlier group's fault */
    {HEAD "1 1501 100000 8100\n2 19 2 020118\n19 1 0 03000558\n3 +\n5 +\n"
          FILE_OF("101"), 101, 10, 23},
    {HEAD "1 1501 100000 8100\n" GROUP FILE_OF("101"), 101, 3, 23},
    /* what stands before the date, and behind it */
    {"", 0, 3, 3},
    {"1 1501 100000 8100\n", 100, 3, 3},
    {"UHL101011", 0, 4, 4},
    {"UHL1310218", 0, 11, 11},
    {"UHL1010118FIRM\001", 0, 4, 23},
    {"UHL1010118FIRMA               1234567890199100\n", 0, 9, 23},
};

static void compare_order(unsigned place, const struct made *made,
                          const struct text *reg, uint64_t due)
{
    uint64_t number = compare_file("order of faults", place, made, reg);
    if (count_check(number == due)) {
        printf("failed: order %u is refused with %llu and not with %llu\n",
               place, (unsigned long long)number, (unsigned long long)due);
        show_bytes("file", made->file.data, made->file.len);
    }
}

static void compare_orders(void)
{
    struct made made = {.sheet = K, .today = PLAIN_TODAY};
    struct text reg = {0};
    for (unsigned i = 0; i < COUNT_OF(orders); i++) {
        text_clear(&made.file);
        text_words(&made.file, orders[i].file);
        put_register(&reg, 20180101);
        set_mark(reg.data, orders[i].marked, true);
        compare_order(i, &made, &reg, orders[i].number);
        put_register(&reg, 20180102);
        compare_order(i, &made, &reg, orders[i].on_other);
    }
    text_free(&made.file);
    text_free(&reg);
}

/* ---- each way to be no register ---- */

/* A file of one item; for what is no sheet, one of K. */
static void made_for(struct made *made, uint64_t sheet)
{
    bool is_sheet = sheet >= K && sheet <= LAST_SHEET;
    make_bulk(made, is_sheet ? (unsigned)sheet : K,
              &(struct bulk){.files = 1, .groups = 1, .items = 1});
    made->sheet = sheet;
}

/* Such a file of each sheet is read against it, and all is asked of it. */
static void compare_register(const char *what, uint64_t seed,
                             const struct text *reg)
{
    static struct made made;
    for (unsigned sheet = K; sheet <= LAST_SHEET; sheet++) {
        made_for(&made, sheet);
        compare_file(what, seed, &made, reg);
    }
    compare_calls(what, seed, reg, 20180101, seed % ALL);
}

static void compare_layouts(void)
{
    struct text reg = {0};
    for (size_t len = 0; len <= 2 * BYTES; len++) {
        put_register(&reg, 20180101);
        text_repeat(&reg, 0xff, BYTES);
        reg.len = len;
        compare_register("each length", len, &reg);
    }
    for (size_t bit = 0; bit < MARK_ROOM; bit++) {
        put_register(&reg, 20180101);
        set_mark(reg.data, bit, true);
        compare_register("each bit", bit, &reg);
    }
    /* Every day there could be, real or not. */
    for (uint64_t date = 19981201; date <= 21010131; date++)
        if (date / 100 % 100 <= 13 && date % 100 <= 32) {
            put_register(&reg, date);
            compare_calls("each day", date, &reg, date, 0);
        }
    text_free(&reg);
}

/* 1 and 2 come before any look at the register, whatever it is. */
static void compare_arguments(void)
{
    static const uint64_t todays[] = {0, 20180101, 20180229, UINT64_MAX};
    struct made made = {0};
    struct text reg = {0};
    struct dice d = {1};
    for (uint64_t sheet = 0; sheet <= LAST_SHEET + 1; sheet++)
        for (size_t i = 0; i < COUNT_OF(todays); i++)
            for (enum ill ill = NOT_ILL; ill < ILLS; ill++) {
                made_for(&made, sheet);
                put_register(&reg, 20180101);
                spoil_register(&reg, &d, ill);
                made.today = todays[i];
                compare_file("arguments", i, &made, &reg);
            }
    text_free(&made.file);
    text_free(&reg);
}

/* ---- each number ---- */

/* All below it are marked; all but it; and it is given back, and its
   neighbours. */
static void compare_numbers(void)
{
    struct text reg = {0};
    put_register(&reg, 20180101);
    for (uint64_t n = 0; n <= ALL; n++) {
        compare_calls("all below", n, &reg, 20180101, n);
        compare_calls("all below", n, &reg, 20180101, n - 1);
        if (n < ALL)
            set_mark(reg.data, (size_t)n, true);
    }
    for (size_t n = 0; n < ALL; n++) {
        set_mark(reg.data, n, false);
        for (uint64_t given = n > 0 ? n - 1 : 0; given <= n + 1; given++)
            compare_calls("all but one", n, &reg, 20180101, given);
        set_mark(reg.data, n, true);
    }
    text_free(&reg);
}

/* Numbers to give back and days to start over all 64 bits: what would be one if
   some of the bits were lost, and any. */
static void compare_wide(void)
{
    struct text reg = {0};
    struct dice d = {1};
    put_register(&reg, 20180101);
    memset(reg.data + 8, 0xff, ALL / 8);
    for (unsigned bit = 0; bit < 64; bit++)
        for (uint64_t near = 0; near < 3; near++) {
            uint64_t high = UINT64_C(1) << bit;
            compare_calls("wide", bit, &reg, high + 20180100 + near,
                          high + near - 1);
            compare_calls("wide", bit, &reg, 0 - high + 20180101,
                          0 - high + near);
        }
    for (uint64_t n = ALL - 1; n <= 2 * MARK_ROOM; n++)
        compare_calls("above 999", n, &reg, n, n);
    for (unsigned i = 0; i < 4000; i++) {
        uint64_t date = roll_bits(&d), given = roll_bits(&d);
        compare_calls("any bits", i, &reg, date, given);
    }
    text_free(&reg);
}

/* ---- the most numbers ---- */

/* A thousand account files: each number is found to be used where it stands. */
static void compare_thousand(struct seeds seeds)
{
    struct made made = {0};
    struct text reg = {0};
    make_bulk(&made, K, &(struct bulk){.files = ALL, .groups = 1, .items = 1});
    put_register(&reg, 20180101);
    check(compare_file("a thousand numbers", 0, &made, &reg) == ABO_ACCEPTED,
          "a file of all numbers is not accepted");
    for (unsigned n = first_step(seeds, 0); n < ALL; n += seeds.step) {
        put_register(&reg, 20180101);
        set_mark(reg.data, n, true);
        check(compare_file("one of a thousand", n, &made, &reg) ==
                  ABO_NUMBER_USED,
              "a used number is not found");
    }
    text_free(&made.file);
    text_free(&reg);
}

/* One account file or item too many, with this number used. */
static void compare_too_many(void)
{
    static const struct {
        struct bulk bulk;
        unsigned marked;
        uint64_t number;
    } list[] = {
        {{.files = 1001, .groups = 1, .items = 1}, ALL, ABO_TOO_MANY},
        {{.files = 1001, .groups = 1, .items = 1}, 999, ABO_NUMBER_USED},
        {{.files = 1, .groups = 1, .items = 100000}, 1, ABO_TOO_MANY},
        {{.files = 1, .groups = 1, .items = 100000}, 0, ABO_NUMBER_USED},
        {{.files = 2, .groups = 1, .items = 100000}, 1, ABO_TOO_MANY},
        {{.files = 2, .groups = 1, .items = 99999}, 1, ABO_NUMBER_USED},
        {{.files = 2, .groups = 1, .items = 99999}, 2, ABO_ACCEPTED},
    };
    struct made made = {0};
    struct text reg = {0};
    for (unsigned i = 0; i < COUNT_OF(list); i++) {
        make_bulk(&made, K, &list[i].bulk);
        put_register(&reg, 20180101);
        if (list[i].marked < ALL)
            set_mark(reg.data, list[i].marked, true);
        check(compare_file("too many", i, &made, &reg) == list[i].number,
              "a large file has another number than it was made for");
    }
    text_free(&made.file);
    text_free(&reg);
}

/* Every number of K and its partners: the first one is used, the second, or
   another. */
static void compare_pairs(struct seeds seeds)
{
    struct made made = {0};
    struct text reg = {0};
    for (unsigned first = first_step(seeds, 0); first < ALL;
         first += seeds.step)
        for (unsigned which = 0; which < PARTNERS; which++) {
            unsigned second = partner_of(first, which);
            const unsigned marked[] = {first, second, (second + 1) % ALL};
            make_pair(&made, first, second);
            put_register(&reg, 20180101);
            set_mark(reg.data, marked[first % 3], true);
            compare_file("pair of numbers", first, &made, &reg);
        }
    text_free(&made.file);
    text_free(&reg);
}

/* ---- what came ---- */

/* Every number that reading can give on a sheet, and on K 22 and 23. */
static bool can_come(unsigned sheet, unsigned number)
{
    if (number == ABO_BAD_SHEET || sheet == 0)
        return number == ABO_BAD_SHEET && sheet == 0;
    if (number == ABO_NUMBER_USED || number == ABO_BAD_REGISTER ||
        number == ABO_BAD_NUMBER)
        return sheet == K;
    if (number == ABO_BAD_PAYER_BANK)
        return sheet != C;
    return number <= ABO_NO_ROOM;
}

/* Fewer files are of the other sheets, of which it is enough that they are
   accepted and refused. */
static bool must_come(unsigned sheet, unsigned number)
{
    bool often = number == ABO_ACCEPTED || number == ABO_BAD_FIELD ||
                 number == ABO_NO_ROOM;
    return can_come(sheet, number) && (sheet <= K || often);
}

static void report_reading(bool tested)
{
    printf("number     K       S       C       E       P       no sheet\n");
    for (unsigned number = 0; number < NUMBERS; number++) {
        unsigned long all = 0;
        for (unsigned sheet = 0; sheet <= LAST_SHEET; sheet++) {
            unsigned long count =
                register_counts[READS_REGISTERED][sheet][number];
            check(count == 0 || can_come(sheet, number),
                  "a number came that reading cannot give on that sheet");
            check(count > 0 || !must_come(sheet, number) || !tested,
                  "a number never came on a sheet");
            all += count;
        }
        if (all == 0)
            continue;
        printf("%6u", number);
        for (unsigned i = 1; i <= LAST_SHEET + 1; i++)
            printf(" %7lu", register_counts[READS_REGISTERED]
                                           [i % (LAST_SHEET + 1)][number]);
        printf("\n");
    }
}

/* By bits. */
static const uint64_t numbers_of[CALLS] = {
    [STARTS] = 1 << 16 | 1 << 2 | 1,
    [ASKS_LOWEST] = 1 << 23 | 1,
    [ASKS_FREE] = 1 << 23 | 1,
    [GIVES_BACK] = 1 << 24 | 1 << 23 | 1,
};

static void report_calls(bool tested)
{
    for (enum which which = STARTS; which <= GIVES_BACK; which++) {
        printf("%s:", call_names[which]);
        for (unsigned number = 0; number < NUMBERS; number++) {
            unsigned long count = register_counts[which][0][number];
            bool can = numbers_of[which] >> number & 1;
            if (count > 0)
                printf(" %u (%lu)", number, count);
            check(can || count == 0, "a number came that the call cannot give");
            check(!can || count > 0 || !tested, "a number never came");
        }
        printf("\n");
    }
}

/* 23 comes by each cause, another date in reading alone; 24 by each. */
static void report_causes(bool tested)
{
    static const char *const causes[ILLS] = {"another date", "too short",
                                             "no day", "a number above 999"};
    static const char *const others[NOT_TAKEN_CAUSES] = {
        "free", "above 999", "without a bit", "wide"};
    for (unsigned ill = 0; ill < ILLS; ill++) {
        printf("23, %s:", causes[ill]);
        for (unsigned which = READS_REGISTERED; which < CALLS; which++) {
            bool can = which != STARTS &&
                       (ill != NOT_ILL || which == READS_REGISTERED);
            unsigned long count = ill_counts[which][ill];
            printf(" %lu", count);
            check(can || count == 0, "23 came by a cause that it cannot have");
            check(!can || count > 0 || !tested, "23 never came by a cause");
        }
        printf("\n");
    }
    for (unsigned i = 0; i < NOT_TAKEN_CAUSES; i++) {
        printf("24, %s: %lu\n", others[i], not_taken_counts[i]);
        check(not_taken_counts[i] > 0, "24 never came by a cause");
    }
}

int main(int argc, char **argv)
{
    struct seeds seeds = take_seeds(argc, argv, 150000);
    catch_crashes();
    compare_generated(seeds);
    compare_orders();
    compare_layouts();
    compare_arguments();
    compare_numbers();
    compare_wide();
    compare_thousand(seeds);
    compare_too_many();
    compare_pairs(seeds);
    bool tested = are_enough(seeds, ENOUGH);
    report_reading(tested);
    report_calls(tested);
    report_causes(tested);
    return last_line();
}
