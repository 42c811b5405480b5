#include "registers.h"
#include "days.h"
#include "wild.h"
#include "words.h"

#include <string.h>

enum { BYTES = ABO_REGISTER_BYTES, LAST = ABO_REGISTER_NUMBERS - 1 };

void set_mark(uint8_t *reg, size_t number, bool marked)
{
    uint8_t bit = (uint8_t)(1u << number % 8), *byte = &reg[8 + number / 8];
    *byte = (uint8_t)(marked ? *byte | bit : *byte & ~bit);
}

void put_register(struct text *out, uint64_t date)
{
    text_clear(out);
    text_word(out, date);
    text_repeat(out, 0, BYTES - 8);
}

/* Looked up in the list, which goes upwards. */
static bool is_day(uint64_t date)
{
    size_t first = 0, behind = DAYS;
    while (behind - first > 1) {
        size_t middle = first + (behind - first) / 2;
        if (day_at(middle) <= date)
            first = middle;
        else
            behind = middle;
    }
    return day_at(first) == date;
}

enum ill ill_of(const uint8_t *reg, size_t len)
{
    if (len < BYTES)
        return TOO_SHORT;
    if (!is_day(number_at(reg, 8)))
        return NO_DAY;
    for (size_t n = LAST + 1; n < MARK_ROOM; n++)
        if (has_mark(reg, n))
            return STRAY_MARK;
    return NOT_ILL;
}

size_t next_number(const uint8_t *file, size_t len, size_t from)
{
    static const char plain[] = "1 1501 001000";
    for (size_t at = from; at + sizeof plain - 1 <= len; at++)
        if (memcmp(file + at, plain, 2) == 0 &&
            (at == 0 || file[at - 1] == '\n' || file[at - 1] == '\r'))
            return at + strlen("1 1501 ");
    return len;
}

static bool are_digits(const uint8_t *bytes, size_t count)
{
    for (size_t i = 0; i < count; i++)
        if (bytes[i] < '0' || bytes[i] > '9')
            return false;
    return true;
}

static uint64_t two_digits(const uint8_t *bytes)
{
    return (uint64_t)(bytes[0] - '0') * 10 + (uint64_t)(bytes[1] - '0');
}

/* The date of the header, real or not; where none can stand, any day. */
static uint64_t date_of(const struct text *file, struct dice *d)
{
    uint64_t any = day_at(below(d, DAYS));
    if (file == NULL || file->len < 10 || !are_digits(file->data + 4, 6))
        return any;
    const uint8_t *date = file->data + 4;
    return 20000000 + two_digits(date + 4) * 10000 +
           two_digits(date + 2) * 100 + two_digits(date);
}

/* A neighbour, the same day of another month or year, or any. */
static uint64_t other_date(struct dice *d, uint64_t date)
{
    const uint64_t near[] = {date - 1,   date + 1,   date - 100, date + 100,
                             date - 10000, date + 10000,
                             day_at(below(d, DAYS))};
    uint64_t other = PICK(d, near);
    return is_day(other) ? other : day_at(below(d, DAYS));
}

static void mark_some(uint8_t *reg, struct dice *d, size_t count)
{
    while (count-- > 0)
        set_mark(reg, below(d, LAST + 1), true);
}

static void mark_all(uint8_t *reg)
{
    for (size_t n = 0; n <= LAST; n++)
        set_mark(reg, n, true);
}

/* None, few, as a dice falls, all up to a number, all but few, all. */
static void draw_marks(uint8_t *reg, struct dice *d)
{
    size_t upto = below(d, LAST + 2), few = below(d, 6);
    switch (below(d, 8)) {
    case 0:
    case 1:
        return;
    case 2:
    case 3:
        mark_some(reg, d, 1 + few);
        return;
    case 4:
        mark_some(reg, d, upto);
        return;
    case 5:
        for (size_t n = 0; n < upto; n++)
            set_mark(reg, n, true);
        return;
    default:
        mark_all(reg);
        while (few-- > 0)
            set_mark(reg, below(d, LAST + 1), false);
    }
}

/* Marks one in so many of the file's numbers, and frees the others. */
static void mark_numbers(uint8_t *reg, struct dice *d, const struct text *file,
                         uint64_t rate)
{
    for (size_t at = next_number(file->data, file->len, 0); at < file->len;
         at = next_number(file->data, file->len, at)) {
        const uint8_t *three = file->data + at;
        if (are_digits(three, 3))
            set_mark(reg, two_digits(three) * 10 + (size_t)(three[2] - '0'),
                     rate > 0 && one_in(d, rate));
    }
}

void spoil_register(struct text *reg, struct dice *d, enum ill how)
{
    static const uint64_t dates[] = {0, 1, 20180229, 20180431, 20180100,
                                     20180001, 20181301, 19991231, 21000101,
                                     UINT64_MAX};
    uint64_t date = number_at(reg->data, 8);
    if (how == TOO_SHORT) {
        reg->len = one_in(d, 4) ? BYTES - 1 : below(d, BYTES);
    } else if (how == NO_DAY) {
        date = one_in(d, 2) ? PICK(d, dates) : wild_number(d, date);
        for (size_t i = 0; i < 8; i++)
            reg->data[i] = (uint8_t)(date >> 8 * i);
    } else if (how == STRAY_MARK) {
        set_mark(reg->data, between(d, LAST + 1, MARK_ROOM - 1), true);
    }
}

void draw_register(struct text *out, struct dice *d, const struct text *file)
{
    static const uint64_t rates[] = {0, 0, 0, 0, 1, 2, 4, 8};
    uint64_t date = date_of(file, d), rate = PICK(d, rates);
    put_register(out, one_in(d, 12) ? other_date(d, date) : date);
    draw_marks(out->data, d);
    if (file != NULL && !one_in(d, 12))
        mark_numbers(out->data, d, file, rate);
    if (one_in(d, 4)) /* bytes behind it, which are nobody's */
        text_repeat(out, (uint8_t)roll(d), between(d, 1, 70));
    if (one_in(d, 10))
        spoil_register(out, d, (enum ill)between(d, TOO_SHORT, STRAY_MARK));
}

uint64_t draw_given(struct dice *d, const struct text *reg)
{
    uint64_t number = below(d, LAST + 1);
    if (one_in(d, 4))
        return one_in(d, 2) ? wild_number(d, number)
                            : between(d, LAST - 1, MARK_ROOM + 1);
    if (reg->len >= BYTES && !one_in(d, 4))
        for (size_t tries = 0; tries <= LAST && !has_mark(reg->data, number);
             tries++)
            number = (number + 1) % (LAST + 1);
    return number;
}

uint64_t draw_date(struct dice *d)
{
    uint64_t date = day_at(below(d, DAYS));
    switch (below(d, 4)) {
    case 0:
        return wild_number(d, date);
    case 1: /* of no month, or of another one */
        return date / 100 * 100 + below(d, 33);
    default:
        return date;
    }
}
