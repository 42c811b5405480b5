/*
 * abo_read against peer_read, on generated files, large files, corner files and
 * odd calls.
 *
 *   compare_read [FILES [SEED [STEP]]]     as seeds.h says
 */
#include <stdio.h>
#include <string.h>

#include "../call/show.h"
#include "../generate/collections.h"
#include "../generate/corners.h"
#include "../generate/dice.h"
#include "../generate/large.h"
#include "../generate/limits.h"
#include "../generate/seeds.h"
#include "ask_read.h"

enum { ENOUGH = 20000 };

static void compare_generated(struct seeds seeds)
{
    struct made made = {0};
    for (uint64_t i = 0; i < seeds.count; i++) {
        generate(&made, seeds.first + i);
        compare_file("generated file", seeds.first + i, &made);
    }
    text_free(&made.file);
}

static void compare_special(struct seeds seeds)
{
    struct made made = {0};
    for (unsigned sheet = K; sheet <= LAST_SHEET; sheet++) {
        unsigned first = first_step(seeds, sheet);
        for (unsigned i = first; corner_file(&made, sheet, i); i += seeds.step)
            compare_file("corner file", i, &made);
        for (unsigned i = first; large_file(&made, sheet, i); i += seeds.step)
            compare_file("large file", i, &made);
    }
    text_free(&made.file);
}

/* Every number of K twice, and with its partners. */
static void compare_pairs(void)
{
    struct made made = {0};
    for (unsigned first = 0; first < 1000; first++)
        for (unsigned which = 0; which < PARTNERS; which++) {
            make_pair(&made, first, partner_of(first, which));
            compare_file("pair of numbers", first, &made);
        }
    text_free(&made.file);
}

/* A collection that is taken has a day that the other kinds have too, so that
   nothing is taken of it that was not when it had their days: as a payment it
   is accepted, and warned of nothing. */
static void compare_as_payment(struct made *made)
{
    uint8_t *second = memchr(made->file.data, '\n', made->file.len);
    second[sizeof "1 150"] = '1';
    struct abo_answer a =
        compare_call("collection as a payment", made->file.data, made->file.len,
                     made->sheet, made->today, 3 * ABO_ROW_BYTES);
    check(a.number == ABO_ACCEPTED && a.rows == 3 && a.warnings == 0,
          "a collection is taken on a day on which a payment is not");
}

/* Every today, with the days about both ends of those on which a collection may
   be due, on C and P in turn. */
static void compare_collections(struct seeds seeds)
{
    struct made made = {0};
    for (size_t today = first_step(seeds, 0); today < DAYS; today += seeds.step)
        for (unsigned which = 0; which < COLLECTION_CASES; which++) {
            collection_file(&made, today / seeds.step % 2 == 0 ? C : P, today,
                            which);
            struct abo_answer a =
                compare_call("collection", made.file.data, made.file.len,
                             made.sheet, made.today, 3 * ABO_ROW_BYTES);
            check(a.number == (collection_taken(today, which) ? ABO_ACCEPTED
                                                              : ABO_BAD_DAY),
                  "a collection is not judged by its day and bank");
            if (a.number == ABO_ACCEPTED)
                compare_as_payment(&made);
        }
    text_free(&made.file);
}

static void compare_odd_call(const struct made *made, uint64_t sheet,
                             uint64_t today)
{
    compare_call("odd call", made->file.data, made->file.len, sheet, today,
                 4 * ABO_ROW_BYTES);
}

/* Sheets and days over all 64 bits: near the real ones, and what would be a
   real one if some of the bits were lost. */
static void compare_arguments(const struct made *made)
{
    static const uint64_t offsets[] = {
        0, UINT64_C(1) << 8, UINT64_C(1) << 16, UINT64_C(1) << 32,
        UINT64_C(1) << 63, UINT64_C(100000000), UINT64_C(10000000000),
        -(UINT64_C(1) << 32), -(UINT64_C(1) << 8), UINT64_C(0) - 20180103,
    };
    struct dice d = {1};
    for (size_t i = 0; i < COUNT_OF(offsets); i++)
        for (uint64_t near = 0; near < 7; near++) {
            compare_odd_call(made, offsets[i] + near, made->today);
            compare_odd_call(made, made->sheet, offsets[i] + 20180099 + near);
        }
    for (unsigned i = 0; i < 2000; i++) {
        compare_odd_call(made, roll_bits(&d), made->today);
        compare_odd_call(made, made->sheet, roll_bits(&d));
    }
    /* Every day there could be, real or not. */
    for (uint64_t date = 19981201; date <= 21010131; date++)
        if (date / 100 % 100 <= 13 && date % 100 <= 32)
            compare_odd_call(made, made->sheet, date);
}

static void compare_odd_calls(void)
{
    struct made made = {0};
    for (unsigned sheet = K; sheet <= LAST_SHEET; sheet++) {
        make_bulk(&made, sheet,
                  &(struct bulk){.files = 1, .groups = 1, .items = 1});
        compare_arguments(&made);
    }
    for (uint64_t sheet = 0; sheet <= LAST_SHEET + 1; sheet++)
        for (uint64_t today = 0; today <= 20180101; today += 20180101)
            compare_call("no pointers", NULL, 0, sheet, today, 0);
    text_free(&made.file);
}

/* With enough files every number that a sheet can give must have come. */
static bool can_come(unsigned sheet, unsigned number)
{
    if (number == 1)
        return sheet == 0;
    if (sheet == 0)
        return false;
    return number == 8 ? sheet != C : number == 9 ? sheet == K : true;
}

/* A day that is judged at each item is refused at the first one and at later
   ones, and taken. */
static void report_each(bool tested)
{
    static const char *const names[EACH_ANSWERS] = {
        "files of collections accepted", "11 at a group's first item",
        "11 at a later item"};
    for (unsigned i = 0; i < EACH_ANSWERS; i++) {
        printf("%s:", names[i]);
        for (unsigned sheet = K; sheet <= LAST_SHEET; sheet++) {
            unsigned long count = each_counts[sheet][i];
            printf(" %lu", count);
            if (tested)
                check((count > 0) == judges_collections(sheet),
                      "a day that is judged at each item was not taken, or not "
                      "refused at one, or on another sheet it was");
        }
        printf("\n");
    }
}

static void report(struct seeds seeds)
{
    bool tested = are_enough(seeds, ENOUGH);
    printf("number     K       S       C       E       P       no sheet\n");
    for (unsigned number = 0; number < READ_NUMBERS; number++) {
        printf("%6u", number);
        for (unsigned i = 1; i <= LAST_SHEET + 1; i++)
            printf(" %7lu", read_counts[i % (LAST_SHEET + 1)][number]);
        printf("\n");
        for (unsigned sheet = 0; sheet <= LAST_SHEET && tested; sheet++)
            if (can_come(sheet, number) &&
                count_check(read_counts[sheet][number] > 0))
                printf("failed: number %u never came on sheet %u\n", number,
                       sheet);
    }
    report_each(tested);
}

int main(int argc, char **argv)
{
    struct seeds seeds = take_seeds(argc, argv, 200000);
    catch_crashes();
    compare_generated(seeds);
    compare_special(seeds);
    compare_pairs();
    compare_odd_calls();
    report(seeds);
    compare_collections(seeds); /* they would hide how often the others came */
    return last_line();
}
