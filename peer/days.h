/* Real days of 2000 to 2099, written YYYYMMDD. */
#ifndef PEER_DAYS_H
#define PEER_DAYS_H

#include <stdbool.h>
#include <stdint.h>

/* In this century every fourth year is a leap year, 2000 among them; of 2100
   no month but January is asked. */
static inline uint64_t days_in_month(uint64_t year, uint64_t month)
{
    static const uint8_t days[12] = {31, 28, 31, 30, 31, 30,
                                     31, 31, 30, 31, 30, 31};
    return days[month - 1] + (month == 2 && year % 4 == 0 ? 1u : 0u);
}

static inline bool day_is_real(uint64_t date)
{
    uint64_t year = date / 10000, month = date / 100 % 100, day = date % 100;
    return year >= 2000 && year <= 2099 && month >= 1 && month <= 12 &&
           day >= 1 && day <= days_in_month(year, month);
}

/* The same day of the next month, or that month's last day if it is shorter;
   for a real day.  From December 2099 it lies in January 2100. */
static inline uint64_t one_month_ahead(uint64_t date)
{
    uint64_t year = date / 10000, month = date / 100 % 100, day = date % 100;
    if (month == 12) {
        year++;
        month = 1;
    } else {
        month++;
    }
    uint64_t last = days_in_month(year, month);
    return year * 10000 + month * 100 + (day < last ? day : last);
}

/* Days since 1 January 2000, for a real day or one of January 2100. */
static inline uint64_t day_number(uint64_t date)
{
    static const uint16_t before[12] = {0,   31,  59,  90,  120, 151,
                                        181, 212, 243, 273, 304, 334};
    uint64_t year = date / 10000 - 2000, month = date / 100 % 100;
    uint64_t leap_day = month > 2 && year % 4 == 0 ? 1 : 0;
    return year * 365 + (year + 3) / 4 + before[month - 1] + leap_day +
           date % 100 - 1;
}

/* The six digits DDMMRR, and back. */
static inline uint64_t date_of_short(uint64_t ddmmrr)
{
    return (2000 + ddmmrr % 100) * 10000 + ddmmrr / 100 % 100 * 100 +
           ddmmrr / 10000;
}

static inline uint64_t short_of_date(uint64_t date)
{
    return date % 100 * 10000 + date / 100 % 100 * 100 + date / 10000 % 100;
}

#endif
