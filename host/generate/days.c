#include "days.h"

static uint32_t list[DAYS];

static unsigned days_of(unsigned year, unsigned month)
{
    static const unsigned char days[] = {31, 28, 31, 30, 31, 30,
                                         31, 31, 30, 31, 30, 31};
    return days[month - 1] + (month == 2 && year % 4 == 0);
}

static void fill_list(void)
{
    size_t place = 0;
    for (unsigned year = 2000; year < 2100; year++)
        for (unsigned month = 1; month <= 12; month++)
            for (unsigned day = 1; day <= days_of(year, month); day++)
                list[place++] = year * 10000 + month * 100 + day;
}

uint64_t day_at(size_t place)
{
    if (list[0] == 0)
        fill_list();
    return list[place];
}

uint64_t short_day_at(size_t place)
{
    uint64_t day = day_at(place);
    return day % 100 * 10000 + day / 100 % 100 * 100 + day / 10000 % 100;
}

size_t month_end(size_t place)
{
    while (place + 1 < DAYS && day_at(place + 1) % 100 != 1)
        place++;
    return place;
}

/* Counts on in the next month up to the day's own number, or as far as that
   month goes. */
size_t month_ahead(size_t place)
{
    uint64_t own = day_at(place) % 100;
    size_t ahead = month_end(place);
    for (uint64_t number = 1; number <= own; number++)
        if (ahead + 1 < DAYS && day_at(ahead + 1) % 100 == number)
            ahead++;
    return ahead;
}
