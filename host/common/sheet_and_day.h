/* A sheet and a day as people give them on a command line. */
#ifndef HOST_COMMON_SHEET_AND_DAY_H
#define HOST_COMMON_SHEET_AND_DAY_H

#include <stdint.h>
#include <stdio.h>

/* A sheet by its letter in either case, its number, or its bank's code: K, k, 1 or 8100; 0300 is C.  0 if it is none. */
uint64_t sheet_named(const char *word);

/* A day spelled 2026-11-15, 15.11.2026 or 20261115, or the word today, which is the day on this machine's clock and in its time
   zone; as YYYYMMDD.  0 if it is spelled in no such way.  Whether it is a real day is for the library to say. */
uint64_t day_named(const char *word);

/* A day of YYYYMMDD as 2026-11-15; in Czech as 15. 11. 2026. */
void put_day(FILE *to, uint64_t day);
void put_day_in(FILE *to, uint64_t language, uint64_t day);

/* How sheets and days are spelled, for a sentence that says what is wanted. */
extern const char sheets_are[], days_are[];

/* A line for each sheet, with its letter, its bank's code and name, for a text of help. */
void print_sheets(FILE *to, const char *before);

#endif
