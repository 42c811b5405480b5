/* The caller's reference in word 21 of an item's row (request W-206), by the
   numbers of its readings. */
#include "check.h"

enum { REFERENCE = 21, ROWS = 9, ITEMS = 4 };

/* Rows count from 1, as in answers. */
static const size_t item_rows[ITEMS] = {3, 4, 6, 9};

static struct batch_in b;
static char plain[4096] = "?"; /* the file of the batch without references */

static uint64_t *reference(size_t row)
{
    return &b.words[row - 1][REFERENCE];
}

/* Items behind a group and behind an item, with a payer and without, and in a
   second account file; each sheet carries them. */
static void start(unsigned sheet)
{
    batch_start(&b);
    batch_text(&b, b.words[2], 11, "led");
    batch_item(&b);
    batch_group(&b, 20180102, 0, 0);
    batch_item(&b)[2] = 19;
    batch_file(&b, 1501, 1000);
    batch_group(&b, 20180102, 19, 19);
    batch_item(&b);
    struct peer_written w = batch_write(&b, sheet, TODAY, sizeof plain - 1);
    CHECK("written without references", w.number == 0);
    if (w.number != 0)
        return;
    memcpy(plain, test_out, (size_t)w.bytes);
    plain[w.bytes] = 0;
}

static void unused_1(unsigned sheet)
{
    start(sheet);
    for (size_t i = 0; i < ROWS; i++) {
        size_t word = b.words[i][0] == 3 ? REFERENCE + 1 : REFERENCE;
        for (; word < WORDS; word++) {
            b.words[i][word] = UINT64_MAX;
            written("1: not looked at", &b, sheet, plain);
        }
    }
    *reference(3) = 7;
    written("1: nor beside a reference", &b, sheet, plain);
}

static void range_2(unsigned sheet)
{
    static const uint64_t outside[] = {
        UINT64_C(1) << 32, (UINT64_C(1) << 32) + 1, UINT64_C(1) << 33,
        UINT64_C(1) << 63, UINT64_MAX};
    static const uint64_t inside[] = {UINT32_MAX, UINT64_C(1) << 31, 1, 0};
    start(sheet);
    for (size_t i = 0; i < ITEMS; i++) {
        uint64_t *word = reference(item_rows[i]);
        for (size_t k = 0; k < sizeof outside / sizeof *outside; k++) {
            *word = outside[k];
            not_written("2: out of range", &b, sheet, 20, item_rows[i],
                        REFERENCE);
        }
        for (size_t k = 0; k < sizeof inside / sizeof *inside; k++) {
            *word = inside[k];
            written("2: in range", &b, sheet, plain);
        }
    }
    for (size_t i = 0; i < ITEMS; i++)
        *reference(item_rows[i]) = UINT32_MAX - i / 2;
    written("4: the same batch with references", &b, sheet, plain);
}

/* Behind the item's other fields, before all of the next row. */
static void order_2(unsigned sheet)
{
    start(sheet);
    *reference(3) = UINT64_MAX;
    b.words[2][20] = 36;
    not_written("2: the name first", &b, sheet, 20, 3, 19);
    b.words[2][20] = 0;
    *reference(4) = UINT64_MAX;
    not_written("2: the upper row first", &b, sheet, 20, 3, REFERENCE);
    b.words[3][0] = 9;
    not_written("2: before an unknown kind", &b, sheet, 20, 3, REFERENCE);
    *reference(3) = 0;
    not_written("2: an unknown kind before its reference", &b, sheet, 20, 4, 0);
    start(sheet);
    *reference(4) = UINT64_MAX;
    b.rows = 5;
    not_written("2: before a missing row", &b, sheet, 20, 4, REFERENCE);
    start(sheet);
    *reference(9) = UINT64_MAX;
    b.left_over = 1;
    not_written("2: before bytes left over", &b, sheet, 20, 9, REFERENCE);
    start(sheet);
    b.words[1][0] = 3;
    *reference(2) = UINT64_MAX;
    not_written("2: an item that is not due", &b, sheet, 20, 2, 0);
}

/* All of 20 before any of 21, which is a name on K and a priority elsewhere. */
static void first_20_2(unsigned sheet)
{
    uint64_t field = sheet == K ? 19 : 10;
    start(sheet);
    if (sheet == K)
        batch_text(&b, b.words[2], 19, "Jan");
    else
        b.words[2][10] = 7;
    *reference(3) = UINT32_MAX;
    not_written("2: a reference in range and 21", &b, sheet, 21, 3, field);
    *reference(3) = UINT64_C(1) << 32;
    not_written("2: before 21 in its row", &b, sheet, 20, 3, REFERENCE);
    *reference(3) = 0;
    *reference(9) = UINT64_C(1) << 32;
    not_written("2: before 21 in an earlier row", &b, sheet, 20, 9, REFERENCE);
    b.words[8][20] = 36;
    not_written("2: and the name before it", &b, sheet, 20, 9, 19);
    if (sheet != K)
        return;
    start(sheet);
    b.from = 7;
    b.to = 6;
    not_written("2: 21 in the header", &b, sheet, 21, 0, 5);
    *reference(9) = UINT64_C(1) << 32;
    not_written("2: before 21 in the header", &b, sheet, 20, 9, REFERENCE);
}

/* Reads the plain file into rows that hold only references; a refusal keeps
   them all. */
static void read_over(unsigned sheet, uint64_t old, size_t len, uint64_t today,
                      size_t room, uint64_t number)
{
    uint8_t rows[ROWS * ROW] = {0}, before[sizeof rows];
    const uint8_t none[8] = {0};
    for (size_t i = 0; i < ROWS * 8; i++)
        rows[i / 8 * ROW + 8 * REFERENCE + i % 8] =
            (uint8_t)(old >> 8 * (i % 8));
    memcpy(before, rows, sizeof rows);
    struct peer_answer a =
        peer_read((const uint8_t *)plain, len, sheet, today, rows, room);
    CHECK("3: the number", a.number == number);
    if (number != 0) {
        CHECK("3: a refusal leaves references",
              memcmp(rows, before, sizeof rows) == 0);
        return;
    }
    for (size_t i = 0; i < ITEMS; i++) {
        const uint8_t *row = rows + (item_rows[i] - 1) * ROW;
        CHECK("3: an item is read", row[0] == 3);
        CHECK("3: its reference is 0",
              memcmp(row + 8 * REFERENCE, none, 8) == 0);
    }
}

static void reading_3(unsigned sheet)
{
    static const uint64_t old[] = {1, UINT32_MAX, UINT64_MAX};
    start(sheet);
    size_t len = strlen(plain);
    for (size_t i = 0; i < sizeof old / sizeof *old; i++) {
        read_over(sheet, old[i], len, TODAY, ROWS * ROW, 0);
        read_over(sheet, old[i], len, 0, ROWS * ROW, 2);
        /* Without `5 +`, so that every item has been judged. */
        read_over(sheet, old[i], len - 5, TODAY, ROWS * ROW, 3);
        read_over(sheet, old[i], len, TODAY, ROWS * ROW - 1, 16);
    }
}

void test_references(void)
{
    for (unsigned sheet = K; sheet <= P; sheet++) {
        unused_1(sheet);
        range_2(sheet);
        order_2(sheet);
        first_20_2(sheet);
        reading_3(sheet);
    }
}
