/*
 * A file of sheet K on standard input, handed in twice on one day: its numbers
 * are used up the first time, and refused the second, until the bank has given
 * them back.
 */
#include <abo.h>
#include <abo_tell.h>

#include <inttypes.h>
#include <stdio.h>
#include <stdlib.h>

enum { MOST = 1 << 20, TODAY = 20261115 };

static void say_free(const struct abo_register *day)
{
    const uint8_t *lent = (const uint8_t *)day;
    printf("%" PRIu64 " numbers are free, the lowest is %03" PRIu64 ".\n",
           abo_register_free(lent, sizeof *day).value,
           abo_register_lowest(lent, sizeof *day).value);
}

/* What the register refuses has a finding of its own; all else is refused as
   without it. */
static void say_refused(const struct abo_answer *a, const uint8_t *file,
                        size_t len, const struct abo_register *day)
{
    struct abo_finding f;
    char text[ABO_TELL_BYTES];
    if (abo_tell_registered(a, file, len, (const uint8_t *)day, sizeof *day,
                            &f)) {
        abo_tell_finding(ABO_ENGLISH, &f, file, len, ABO_SHEET_K, TODAY, text,
                         sizeof text);
        puts(text);
    } else {
        printf("Refused at line %" PRIu64 ": %s.\n", a->line,
               abo_say_number(a->number));
    }
}

/* Hands the file in; gives back how many rows it has, 0 if it is refused. */
static size_t hand_in(const uint8_t *file, size_t len, union abo_row *rows,
                      size_t room, struct abo_register *day)
{
    struct abo_answer a = abo_read_rows_registered(file, len, ABO_SHEET_K,
                                                   TODAY, rows, room, day);
    if (a.number == ABO_ACCEPTED)
        say_free(day);
    else
        say_refused(&a, file, len, day);
    return (size_t)a.rows;
}

static void give_back(struct abo_register *day, uint64_t number)
{
    if (abo_register_give_back((uint8_t *)day, sizeof *day, number).number ==
        ABO_ACCEPTED)
        printf("%03" PRIu64 " was given back.\n", number);
}

int main(void)
{
    uint8_t *file = malloc(MOST);
    size_t len = file != NULL ? fread(file, 1, MOST, stdin) : 0;
    size_t room = len / 8 + 1, count = 0; /* as many rows as it may have */
    union abo_row *rows = calloc(room, sizeof *rows);
    struct abo_register day;
    abo_register_start(TODAY, (uint8_t *)&day, sizeof day);
    if (file != NULL && rows != NULL)
        count = hand_in(file, len, rows, room, &day);
    if (count > 0)
        hand_in(file, len, rows, room, &day);
    for (size_t i = 0; i < count; i++)
        if (rows[i].word[ABO_FIELD_ROW] == ABO_ROW_FILE)
            give_back(&day, rows[i].file.number / 1000);
    if (count > 0)
        hand_in(file, len, rows, room, &day);
    free(rows);
    free(file);
    return count > 0 ? EXIT_SUCCESS : EXIT_FAILURE;
}
