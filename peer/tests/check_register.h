/* Shared by the tests of registers (request W-207): a day kept by hand, files
   with given numbers, and the calls with guards around every lent byte. */
#ifndef CHECK_REGISTER_H
#define CHECK_REGISTER_H

#include "check.h"

enum { REGISTER = 136, NUMBERS = 1000, BITS = 1024 };

/* ---- a day by hand ---- */

/* The last 24 have no number; a sound register marks none of them. */
struct day {
    uint64_t date;
    bool marked[BITS];
};

/* By counting through the calendar; a month of 0 or 13 has no days. */
bool is_a_day(uint64_t date);

void day_start(struct day *d, uint64_t date);
bool day_is_sound(const struct day *d);
uint64_t day_lowest(const struct day *d);
uint64_t day_free(const struct day *d);

/* Spells it in words, each word byte by byte. */
void day_spell(const struct day *d, uint8_t *reg);
/* Does the register say just this day? */
bool day_is(const struct day *d, const uint8_t *reg);

/* ---- files ---- */

/* A K file of this creation date with these six-digit numbers, one account file
   each: five lines and three rows.  It stays until the next one. */
const char *file_of(uint64_t date, size_t count, const unsigned *numbers);
#define FILE_OF(...)                                                     \
    file_of(TODAY, sizeof((unsigned[]){__VA_ARGS__}) / sizeof(unsigned), \
            (unsigned[]){__VA_ARGS__})

/* ---- the calls of one register ---- */

enum call { START, LOWEST, FREE, GIVE_BACK };

/* Each call is made twice: in bytes of exactly the length lent, where one
   outside is caught, and between guards, off any alignment.  Both must answer
   and leave alike; what they leave is put back.  The value is a date or a
   number where the call takes one. */
struct peer_register_answer lent_call(enum call call, uint64_t value,
                                      uint8_t *reg, size_t len);
/* Wants this answer and every byte kept. */
void call_keeps(const char *what, enum call call, uint64_t value,
                const uint8_t *reg, size_t len, uint64_t number,
                uint64_t answer);
/* Of a day with nothing behind it: wants this answer and the day kept. */
void day_keeps(const char *what, enum call call, uint64_t value,
               const struct day *d, uint64_t number, uint64_t answer);
/* Wants number 0 and value 0, and this day afterwards. */
void day_becomes(const char *what, enum call call, uint64_t value,
                 const struct day *d, const struct day *after);

/* ---- reading against a register ---- */

struct reading {
    const void *file;
    size_t len;
    uint64_t sheet, today;
    size_t room; /* for rows, in bytes */
};

bool same_answer(const struct peer_answer *x, const struct peer_answer *y);
struct peer_answer refusal(uint64_t number, uint64_t line, uint64_t byte);

/* Made twice like the calls above, and once without a register.  A refusal must
   keep all that is lent; what is not 22 or 23 must be the answer, and the rows,
   of reading without a register. */
struct peer_answer lent_read(const struct reading *r, uint8_t *reg,
                             size_t reg_len);

/* K, today: wants this refusal, at a place inside the line. */
void day_refuses(const char *what, const struct day *d, const char *file,
                 uint64_t number, uint64_t line, size_t plus);
/* K, today: wants acceptance with these counts, and this day afterwards. */
void day_accepts(const char *what, const struct day *d, const char *file,
                 uint64_t rows, uint64_t warnings, const struct day *after);

#endif
