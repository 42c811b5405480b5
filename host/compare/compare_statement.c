/*
 * abo_statement_read and abo_statement_write against the second program's, on
 * generated files and rows, on every byte of a file and of rows with every
 * value, on files and rows of every length, and at the limits of sums.  Then the
 * round trip: what is read is written back but for a minus before zeros.
 *
 *   compare_statement [FILES [SEED [STEP]]]     as seeds.h says; with a STEP no
 *                                               sum passes 2^64
 */
#include <stdio.h>
#include <string.h>

#include "../call/show.h"
#include "../generate/dice.h"
#include "../generate/record.h"
#include "../generate/seeds.h"
#include "../generate/statements.h"
#include "ask_statement.h"
#include "endless_sums.h"

enum { ENOUGH = 20000, RECORD = ABO_RECORD_BYTES, ROW = ABO_STATEMENT_ROW_BYTES };

static void compare_generated(struct seeds seeds)
{
    struct text bytes = {0};
    for (uint64_t i = 0; i < seeds.count; i++) {
        uint64_t seed = seeds.first + i;
        generate_statement(&bytes, seed);
        compare_statement("generated statement", seed, READS_STATEMENT, &bytes);
        draw_statement(&bytes, seed);
        compare_statement("drawn rows", seed, WRITES_STATEMENT, &bytes);
    }
    text_free(&bytes);
}

/* Every value of every byte, one at a time. */
static void compare_each_byte(enum which which, struct text *bytes, size_t room)
{
    for (size_t at = 0; at < bytes->len; at++) {
        uint8_t kept = bytes->data[at];
        for (unsigned value = 0; value < 256; value++) {
            bytes->data[at] = (uint8_t)value;
            compare_statement_once("each byte", at, which, bytes->data,
                                   bytes->len, room);
        }
        bytes->data[at] = kept;
    }
}

static void compare_each_length(enum which which, const struct text *bytes,
                                size_t room)
{
    for (size_t len = 0; len <= bytes->len; len++)
        compare_statement_once("each length", len, which,
                               len == 0 ? NULL : bytes->data, len, room);
}

/* Two statements, of which the first has movements of all codes; the zeros that
   may have a minus have one. */
static void make_frame(struct text *file, struct text *rows)
{
    union abo_statement_row *row;
    static const int64_t heads[2][4] = {{0, -111, 300, 189}, {-5, -5, 0, 0}};
    static const uint64_t moves[4][2] = {{1, 400}, {4, 100}, {2, 200}, {5, 11}};
    text_clear(file);
    text_clear(rows);
    text_repeat(rows, 0, 6 * ROW);
    row = (void *)rows->data;
    for (unsigned i = 0; i < 6; i++) {
        memset((uint8_t *)&row[i] + 64, 'k', i % 5 == 0 ? 49 : 70);
        row[i].word[0] = i % 5 == 0 ? ABO_STATEMENT_HEAD : ABO_STATEMENT_MOVEMENT;
        row[i].head.account = (struct abo_account){19, 19 + i};
        if (i % 5 == 0) {
            memcpy(&row[i].head.old_balance, heads[i / 5], sizeof heads[0]);
        } else {
            row[i].movement.code = moves[i - 1][0];
            row[i].movement.amount = moves[i - 1][1];
        }
        put_record(file, &row[i], true);
    }
}

static void compare_frame(void)
{
    struct text file = {0}, rows = {0};
    make_frame(&file, &rows);
    check(compare_statement("frame", 0, READS_STATEMENT, &file) == ABO_NO_ROOM &&
              compare_statement("frame", 0, WRITES_STATEMENT, &rows) ==
                  ABO_NO_ROOM,
          "the frame is not accepted");
    compare_each_byte(READS_STATEMENT, &file, rows.len);
    compare_each_byte(WRITES_STATEMENT, &rows, file.len);
    compare_each_length(READS_STATEMENT, &file, rows.len);
    compare_each_length(WRITES_STATEMENT, &rows, file.len);
    text_free(&file);
    text_free(&rows);
}

/* Each is read with the number that it was made for. */
static void compare_corners(void)
{
    struct text file = {0};
    uint64_t due;
    for (unsigned i = 0; corner_statement(&file, &due, i); i++) {
        uint64_t number =
            compare_statement("corner statement", i, READS_STATEMENT, &file);
        if (count_check(number == (due == 0 ? ABO_NO_ROOM : due)))
            printf("failed: corner statement %u is read with %llu and not with "
                   "%llu\n",
                   i, (unsigned long long)number, (unsigned long long)due);
    }
    text_free(&file);
}

/* Only where it takes seconds. */
static void compare_long(struct seeds seeds)
{
    if (seeds.step > 1 || seeds.count < ENOUGH) {
        printf("sums that pass 2^64 are not tested\n");
        return;
    }
    compare_endless();
}

/* ---- the round trip, by the library alone ---- */

/* Is it a field of zeros with a minus?  Then it has its plus from now on. */
static void plain_record(uint8_t *record)
{
    const struct record_field *f = fields_of_record(ABO_STATEMENT_HEAD);
    if (memcmp(record, "074", 3) != 0)
        return;
    for (size_t i = 0; i < RECORD_FIELDS; i++)
        if (f[i].plus != 0 &&
            memcmp(record + f[i].place, "00000000000000", f[i].width) == 0)
            record[f[i].place + f[i].width] = f[i].plus;
}

/* NULL, or what is wrong.  The file is accepted. */
static const char *trip_fault(struct text *file, uint8_t *rows, size_t count,
                              uint8_t *out)
{
    size_t bytes = count * ROW;
    if (abo_statement_read(file->data, file->len, rows, bytes).number != 0)
        return "there is no reading with the room asked for";
    struct abo_written w = abo_statement_write(rows, bytes, out, file->len);
    if (w.number != 0 || w.bytes != file->len)
        return "what was read is not written";
    for (size_t at = 0; at < file->len; at += RECORD)
        plain_record(file->data + at);
    if (memcmp(out, file->data, file->len) != 0)
        return "what was read is written as another file";
    static uint8_t again[200 * ROW];
    if (bytes > sizeof again)
        return "the statement is too long to be read again";
    struct abo_statement_answer a =
        abo_statement_read(out, file->len, again, bytes);
    if (a.number != 0 || memcmp(again, rows, bytes) != 0)
        return "what was written is read otherwise";
    return NULL;
}

static void round_trips(struct seeds seeds)
{
    static uint8_t rows[200 * ROW], out[200 * RECORD];
    struct text file = {0};
    unsigned long made = 0;
    for (uint64_t i = 0; i < seeds.count; i++) {
        generate_statement(&file, seeds.first + i);
        in_hand("round trip", seeds.first + i, file.data, file.len);
        struct abo_statement_answer a =
            abo_statement_read(file.data, file.len, NULL, 0);
        if (a.number != ABO_NO_ROOM)
            continue;
        made++;
        const char *fault = trip_fault(&file, rows, (size_t)a.needed, out);
        if (count_check(fault == NULL)) {
            printf("failed: round trip: %s, seed %llu\n", fault,
                   (unsigned long long)(seeds.first + i));
            show_bytes("file", file.data, file.len);
        }
    }
    printf("round trips: %lu files\n", made);
    check(made > 0 || seeds.count < 100, "no round trip was made");
    text_free(&file);
}

/* ---- what came ---- */

/* A place of a record, or a word of a row, at which a number must have come. */
struct wanted {
    unsigned writing, number, kind, place;
};

static const struct wanted wanted[] = {
    {0, 50, OF_HEAD, 0},     {0, 50, OF_MOVEMENT, 0}, {0, 50, OF_NONE, 0},
    {0, 51, OF_HEAD, 3},     {0, 51, OF_HEAD, 45},    {0, 51, OF_HEAD, 59},
    {0, 51, OF_HEAD, 60},    {0, 51, OF_HEAD, 74},    {0, 51, OF_HEAD, 75},
    {0, 51, OF_HEAD, 89},    {0, 51, OF_HEAD, 90},    {0, 51, OF_HEAD, 104},
    {0, 51, OF_MOVEMENT, 3}, {0, 51, OF_MOVEMENT, 19}, {0, 51, OF_MOVEMENT, 48},
    {0, 51, OF_MOVEMENT, 60}, {0, 51, OF_MOVEMENT, 61}, {0, 52, OF_HEAD, 75},
    {0, 52, OF_HEAD, 90},    {0, 53, OF_HEAD, 60},    {1, 50, OF_MOVEMENT, 0},
    {1, 50, OF_NONE, 0},     {1, 51, OF_HEAD, 1},     {1, 51, OF_HEAD, 2},
    {1, 51, OF_HEAD, 3},     {1, 51, OF_HEAD, 4},     {1, 51, OF_HEAD, 5},
    {1, 51, OF_HEAD, 6},     {1, 51, OF_MOVEMENT, 1}, {1, 51, OF_MOVEMENT, 2},
    {1, 51, OF_MOVEMENT, 3}, {1, 51, OF_MOVEMENT, 4}, {1, 51, OF_MOVEMENT, 5},
    {1, 51, OF_MOVEMENT, 6}, {1, 51, OF_MOVEMENT, 7}, {1, 52, OF_HEAD, 5},
    {1, 52, OF_HEAD, 6},     {1, 53, OF_HEAD, 4},
};

static bool is_wanted(unsigned writing, unsigned number, unsigned kind,
                      unsigned place)
{
    for (size_t i = 0; i < COUNT_OF(wanted); i++)
        if (wanted[i].writing == writing && wanted[i].number == number &&
            wanted[i].kind == kind && wanted[i].place == place)
            return true;
    return false;
}

/* No number may come at a place that has none, and with enough files each must
   have come at each place that has. */
static void report_places(unsigned writing, bool tested)
{
    const struct statement_counts *c = &statement_counts[writing];
    for (unsigned number = 50; number < NUMBERS; number++)
        for (unsigned kind = 0; kind < STATEMENT_KINDS; kind++)
            for (unsigned place = 0; place < RECORD; place++) {
                bool due = is_wanted(writing, number, kind, place);
                unsigned long count = c->places[number][kind][place];
                if (count > 0)
                    printf(" %u at %u (%lu)", number, place, count);
                check(due || count == 0, "a number came where it cannot");
                check(!due || count > 0 || !tested, "a number never came");
            }
    printf("\n");
}

static void report(struct seeds seeds)
{
    static const unsigned numbers[] = {0, 16, 50, 51, 52, 53};
    bool tested = are_enough(seeds, ENOUGH);
    for (unsigned writing = 0; writing < 2; writing++) {
        unsigned long sum = 0, all = 0;
        printf(writing ? "writing:" : "reading:");
        for (size_t i = 0; i < COUNT_OF(numbers); i++) {
            unsigned long count = statement_counts[writing].numbers[numbers[i]];
            printf(" %u: %lu", numbers[i], count);
            sum += count;
            check(count > 0 || !tested, "a number never came");
        }
        for (unsigned number = 0; number < NUMBERS; number++)
            all += statement_counts[writing].numbers[number];
        printf("\n");
        check(all == sum, "a number came that these calls cannot give");
        report_places(writing, tested);
    }
}

int main(int argc, char **argv)
{
    struct seeds seeds = take_seeds(argc, argv, 200000);
    catch_crashes();
    compare_generated(seeds);
    compare_frame();
    compare_corners();
    compare_long(seeds);
    round_trips(seeds);
    report(seeds);
    return last_line();
}
