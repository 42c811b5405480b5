/* One row of a statement, spelled as its record by the tables of docs/RULES.md:
   the second program's and the library's own tables are not asked. */
#ifndef HOST_RECORD_H
#define HOST_RECORD_H

#include <abo.h>

#include "dice.h"
#include "text.h"

/* A field of a record that is read. */
struct record_field {
    size_t place, width; /* without the sign */
    size_t word;         /* of the row; an account has the next one too */
    uint8_t plus;        /* the sign of zero and above; 0: it has none */
};

enum { RECORD_FIELDS = 5 };

/* The fields of a record 074 or 075 by its kind; those of 075 for any other. */
const struct record_field *fields_of_record(uint64_t kind);

/* Puts the record of a row whose numbers fit their digits.  `minus_zero`: zeros
   have a minus. */
void put_record(struct text *file, const union abo_statement_row *row,
                bool minus_zero);

#endif
