/* What the bytes of a fuzzer's input stand for.
 *
 *   0      the call (modulo 3: read, write, explain), and by the quotient's
 *          bits: 1 slices lie in front of the page behind them, 2 the texts
 *          run on over the rows, 32 a line is found and nothing explained, 64
 *          a statement is read or written and no batch, or what is found is
 *          listed and not explained; else 16 a register is lent: a file is read
 *          against it, in the place of writing a day is started, or with 8 a
 *          number given back, in that of explaining the lowest number is asked
 *          for, or with 8 how many are free
 *   1      the sheet, modulo 7: 0 and 6 are none
 *   2, 3   today, or the date to start: a place in the list of days, or past
 *          these a number; or the line's number, or the one given back
 *   4      the room: 0 is none, else 128 more than what is wanted; or, if not
 *          0, the line's number counts down from the largest
 *   ..     the file, or the rows of a statement; or in writing a batch
 *   5      how many bytes of texts there are
 *   6 - 16 date like today, start and end of the interval, two bytes each;
 *          client, five bytes
 *   17     the name, 20 bytes; the texts; the rows
 *   5      or, where one is lent, how many bytes the register has; then these,
 *          and the file
 *
 * Numbers have their lowest byte first.
 */
#ifndef HOST_FUZZ_INPUT_H
#define HOST_FUZZ_INPUT_H

#include "../attack/ask_edges.h"
#include "../generate/dice.h"
#include "../generate/draw_draft.h"
#include "../generate/generate.h"

struct fuzz_input {
    struct call call; /* its slices lie in the input */
    bool at_back, runs_on;
    uint8_t room;
};

/* False if there are too few bytes. */
bool decode_input(struct fuzz_input *in, const uint8_t *data, size_t len);

/* The room in bytes, if so many are wanted. */
size_t room_of_input(const struct fuzz_input *in, uint64_t wanted);

/* The other way: inputs of calls.  The dice draw what the call leaves open.  A
   file is read, explained, or what is found in it is listed; what has a register
   is given as its call. */
void put_file_input(struct text *out, const struct made *made, enum which which,
                    struct dice *d);
void put_line_input(struct text *out, const struct made *made, struct dice *d);
void put_draft_input(struct text *out, const struct draft *draft,
                     struct dice *d);
void put_register_input(struct text *out, const struct call *c, struct dice *d);
void put_statement_input(struct text *out, enum which which,
                         const struct text *bytes, struct dice *d);

#endif
