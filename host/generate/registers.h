/* Registers of a day's numbers, as they are lent: laid out, with none to all of
   the numbers marked, or not laid out in each of the ways there are. */
#ifndef HOST_REGISTERS_H
#define HOST_REGISTERS_H

#include <abo.h>

#include "dice.h"
#include "text.h"

/* There is room for the marks of so many numbers; those from 1,000 on must not
   be. */
enum { MARK_ROOM = 1024 };

static inline bool has_mark(const uint8_t *reg, size_t number)
{
    return reg[8 + number / 8] >> number % 8 & 1;
}

void set_mark(uint8_t *reg, size_t number, bool marked);

/* A register with nothing marked. */
void put_register(struct text *out, uint64_t date);

/* What is wrong with the layout, tested in this order. */
enum ill { NOT_ILL, TOO_SHORT, NO_DAY, STRAY_MARK, ILLS };
enum ill ill_of(const uint8_t *reg, size_t len);

/* Where the number of the next account file stands, looked for in lines that
   begin from a place on; the file's length if there is none. */
size_t next_number(const uint8_t *file, size_t len, size_t from);

/* Draws one to read the file against: mostly for its date, with its numbers
   free, or some of them marked.  There need be no file. */
void draw_register(struct text *out, struct dice *d, const struct text *file);

/* Not laid out, in this way. */
void spoil_register(struct text *reg, struct dice *d, enum ill how);

/* A number to give back to it: marked, free, or from all over the 64 bits. */
uint64_t draw_given(struct dice *d, const struct text *reg);

/* A date to start: real, near a real one, or from all over the 64 bits. */
uint64_t draw_date(struct dice *d);

#endif
