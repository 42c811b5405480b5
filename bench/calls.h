/* One call of the library or of the second program, on bytes lent once. */
#ifndef BENCH_CALLS_H
#define BENCH_CALLS_H

#include "../host/call/call.h"
#include "../host/generate/sized.h"

enum who { NONE, ABO, PEER };

/* What a call is given, and the room that is lent to it: in reading for as many
   rows as the file has, in explaining and listing what they need, else for as
   many bytes.  The items of a statement are its records.  A register is that of
   the file's day, started anew before each call. */
struct lent {
    struct sized_file file;
    uint8_t *rows;       /* of the file, if they are to be written .. */
    struct outcome read; /* .. and what the second program read with them */
    struct call call;
    struct abo_register reg;
    uint8_t *out;
    size_t out_len, left; /* the bytes of it that the last call has written */
};

/* Gives back false if there is no such file.  Statements have no sheet, and are
   of the kind
 *
 *   one        one statement of all movements
 *   single     statements of one movement each
 *   thousand   statements of 1,000 movements each
 */
bool lend_for(struct lent *l, enum which which, unsigned sheet,
              const char *kind, size_t bytes);
void give_back(struct lent *l);

/* Gives back the bytes read, explained, listed from or written, or 0 if the file
   was not accepted as what it was made.  NONE does nothing, and well. */
size_t call_once(struct lent *l, enum who who);

#endif
