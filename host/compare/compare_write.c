/*
 * abo_write against peer_write, on drawn batches, on batches at the limits of
 * counts and in odd calls.  Then the round trip of files.
 *
 *   compare_write [BATCHES [SEED [STEP]]]     as seeds.h says
 */
#include <stdio.h>
#include <string.h>

#include "../../peer/peer.h"
#include "../call/show.h"
#include "../generate/collections.h"
#include "../generate/dice.h"
#include "../generate/draw_draft.h"
#include "../generate/large.h"
#include "../generate/limits.h"
#include "../generate/seeds.h"
#include "../generate/words.h"
#include "ask_write.h"
#include "round_trip.h"

enum { ENOUGH = 20000 };

static void compare_drawn(struct seeds seeds)
{
    struct draft draft = {0};
    for (uint64_t i = 0; i < seeds.count; i++) {
        draw_draft(&draft, seeds.first + i);
        compare_draft("drawn batch", seeds.first + i, &draft);
    }
    free_draft(&draft);
}

/* The batch that a file says, read by the second program.  False if the file is
   refused. */
static bool draft_of_file(struct draft *d, const struct made *made,
                          uint8_t *room, size_t room_len)
{
    struct peer_answer a = peer_read(made->file.data, made->file.len,
                                     made->sheet, made->today, room, room_len);
    if (a.number != 0)
        return false;
    text_clear(&d->rows);
    text_clear(&d->texts);
    text_bytes(&d->rows, room, (size_t)a.rows * ABO_ROW_BYTES);
    text_bytes(&d->texts, made->file.data, made->file.len);
    memcpy(d->name, a.header.name, sizeof a.header.name);
    d->name_len = sizeof a.header.name;
    d->date = a.header.date;
    d->client = a.header.client;
    d->from = a.header.from;
    d->to = a.header.to;
    d->sheet = made->sheet;
    d->today = made->today;
    return true;
}

/* A large batch as it is, and with one row or one account file more. */
static void compare_large(const struct made *made, unsigned place)
{
    static uint8_t room[200100 * ABO_ROW_BYTES];
    struct draft d = {0};
    if (!draft_of_file(&d, made, room, sizeof room))
        return;
    compare_draft("large batch", place, &d);
    size_t last = d.rows.len - ABO_ROW_BYTES;
    text_bytes(&d.rows, room + last, ABO_ROW_BYTES);
    compare_draft("large batch and an item", place, &d);
    d.rows.len = last + ABO_ROW_BYTES;
    text_bytes(&d.rows, room, ABO_ROW_BYTES);
    compare_draft("large batch and an account file's row", place, &d);
    text_bytes(&d.rows, room + ABO_ROW_BYTES, 2 * ABO_ROW_BYTES);
    compare_draft("large batch and an account file", place, &d);
    free_draft(&d);
}

static void compare_bulks(struct seeds seeds)
{
    static const struct bulk bulks[] = {
        {.files = 1, .groups = 1, .items = 99999},
        {.files = 1, .groups = 99999, .items = 1},
        {.files = 2, .groups = 1, .items = 99999},
        {.files = 1000, .groups = 1, .items = 1},
        {.files = 999, .groups = 1, .items = 1},
        {.files = 1, .groups = 1, .items = 1000},
        {.files = 10, .groups = 10, .items = 10},
        {.files = 1, .groups = 1, .items = 999},
    };
    struct made made = {0};
    for (unsigned sheet = K; sheet <= LAST_SHEET; sheet++)
        for (unsigned i = first_step(seeds, sheet); i < COUNT_OF(bulks);
             i += seeds.step) {
            make_bulk(&made, sheet, &bulks[i]);
            compare_large(&made, i);
        }
    text_free(&made.file);
}

/* Every number of K twice, and with its partners: of two account files, each
   with a group and an item, the second's number is changed. */
static void compare_pairs(void)
{
    struct made made = {0};
    struct draft d = {0};
    uint8_t room[6 * ABO_ROW_BYTES];
    for (unsigned first = 0; first < 1000; first++)
        for (unsigned which = 0; which < PARTNERS; which++) {
            uint64_t number = partner_of(first, which) * 1000;
            make_pair(&made, first, (first + 1) % 1000);
            draft_of_file(&d, &made, room, sizeof room);
            set_word(d.rows.data, 3, ABO_FILE_NUMBER, number);
            compare_draft("pair of numbers", first, &d);
        }
    free_draft(&d);
    text_free(&made.file);
}

/* As compare_read.c does with files. */
static void compare_collections(struct seeds seeds)
{
    struct draft d = {0};
    for (size_t today = first_step(seeds, 0); today < DAYS; today += seeds.step)
        for (unsigned which = 0; which < COLLECTION_CASES; which++) {
            collection_draft(&d, today / seeds.step % 2 == 0 ? C : P, today,
                             which);
            struct abo_written w = compare_once("collection", &d, 0);
            check(collection_taken(today, which)
                      ? w.number == ABO_NO_ROOM
                      : w.number == ABO_NOT_CARRIED && w.row == 3 &&
                            w.field == ABO_ITEM_BANK,
                  "a collection is not judged by its day and bank");
        }
    free_draft(&d);
}

/* Sheets and days over all 64 bits, and calls without a pointer. */
static void compare_odd_calls(void)
{
    struct draft draft = {.sheet = K, .today = 20180101};
    struct dice d = {1};
    for (unsigned i = 0; i < 4000; i++) {
        draw_draft(&draft, i);
        if (one_in(&d, 2))
            draft.sheet = roll_bits(&d);
        else
            draft.today = roll_bits(&d);
        compare_draft("odd call", i, &draft);
    }
    free_draft(&draft);
    for (uint64_t sheet = 0; sheet <= LAST_SHEET + 1; sheet++)
        compare_nothing(sheet, 20180101);
}

/* With enough batches every number must have come, and 20 and 21 at every field
   of which they can be given. */
static void report(struct seeds seeds)
{
    static const unsigned numbers[] = {0, 1, 2, 16, 20, 21};
    static const char *const names[] = {"header", "account file", "group",
                                        "item", "no row"};
    static const uint32_t wanted[2][WRITE_THINGS] = {
        /* a bit for each field */
        {0x3e, 0x7, 0x7, 0x2aafeb, 0x1},
        {0x20, 0x6, 0x2, 0xaac61, 0x0},
    };
    bool tested = are_enough(seeds, ENOUGH);
    for (size_t i = 0; i < COUNT_OF(numbers); i++) {
        printf("number %2u: %lu\n", numbers[i], write_counts[numbers[i]]);
        if (tested)
            check(write_counts[numbers[i]] > 0,
                  "a number of writing never came");
    }
    for (unsigned n = 0; n < 2; n++)
        for (unsigned thing = 0; thing < WRITE_THINGS; thing++) {
            printf("%u at %s, field:", 20 + n, names[thing]);
            for (unsigned field = 0; field < WRITE_FIELDS; field++) {
                unsigned long count = write_fields[n][thing][field];
                if (count > 0)
                    printf(" %u (%lu)", field, count);
                if (tested && wanted[n][thing] >> field & 1)
                    check(count > 0, "20 or 21 never came at a field");
            }
            printf("\n");
        }
}

int main(int argc, char **argv)
{
    struct seeds seeds = take_seeds(argc, argv, 200000);
    catch_crashes();
    compare_drawn(seeds);
    compare_bulks(seeds);
    compare_pairs();
    compare_odd_calls();
    round_trips(seeds.count / 2, seeds.first);
    report(seeds);
    compare_collections(seeds); /* they would hide how often the others came */
    return last_line();
}
