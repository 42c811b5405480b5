/* What is found in a file (request W-205): a refusal or a warning, with its
   cause, its place, its field and what was allowed there. */
#ifndef PEER_FINDING_H
#define PEER_FINDING_H

#include "bytes.h"

/* Fields.  Those of one line are numbered from left to right, so that behind a
   field comes the next number. */
enum {
    FIELD_LINE = 0,
    FIELD_CREATED = 1,
    FIELD_HOLDER,
    FIELD_CLIENT,
    FIELD_FROM,
    FIELD_TO,
    FIELD_REST,
    FIELD_KIND = 10,
    FIELD_NUMBER,
    FIELD_BANK,
    FIELD_GROUP_PAYER = 20,
    FIELD_TOTAL,
    FIELD_DATE,
    FIELD_PAYER = 30,
    FIELD_PAYEE,
    FIELD_AMOUNT,
    FIELD_VARIABLE,
    FIELD_BANK_FIELD,
    FIELD_SPECIFIC,
    FIELD_TEXT,
    FIELD_PARTS, /* the first of four */
    FIELD_NAME = 41,
    FIELD_GROUP_END = 50,
    FIELD_FILE_END
};

/* Causes.  Those of a refusal begin with its number. */
enum {
    DUE_FIRST = 30,
    DUE_FILE,
    DUE_GROUP,
    DUE_ITEM,
    DUE_ITEM_OR_END,
    DUE_GROUP_OR_END,
    DUE_FILE_OR_END,
    BAD_BYTES = 40,
    BAD_DIVIDER_MISSING,
    BAD_DIVIDER_MORE,
    BAD_CLOSING,
    ACCOUNT_PREFIX = 50,
    ACCOUNT_BASE,
    ACCOUNT_ZEROS,
    AMOUNT_ZERO = 60,
    AMOUNT_OVER,
    KIND_OTHER = 70,
    BANK_OTHER = 80,
    INTERVAL_TURNED = 90,
    NUMBER_OUTSIDE,
    NUMBER_USED,
    TOTAL_DIFFERS = 100,
    TOTAL_PASSES,
    DAY_NOT_REAL = 110,
    DAY_EARLY,
    DAY_LATE,
    COLLECTION_EARLY,
    COLLECTION_LATE,
    PAYEE_BANK_ZERO = 120,
    DIGIT_NINTH = 130,
    DIGIT_TENTH,
    TEXT_START = 140,
    TEXT_PARTS,
    TEXT_LENGTH,
    TEXT_BAR,
    TEXT_MARKS,
    MANY_FILES = 150,
    MANY_FILE_ITEMS,
    MANY_ALL_ITEMS,
    WARNS_TOTAL = 1010,
    WARNS_PAST,
    WARNS_PART,
    WARNS_NAME,
    WARNS_PRIORITY
};

enum { FINDING_BYTES = 64 };

struct peer_finding {
    uint64_t number; /* of a refusal; 0 is a warning */
    uint64_t cause, line, byte, length, field, least, most;
};

static inline void store_finding(uint8_t *out, const struct peer_finding *f)
{
    const uint64_t words[FINDING_BYTES / 8] = {
        f->number, f->cause, f->line,  f->byte,
        f->length, f->field, f->least, f->most,
    };
    for (size_t i = 0; i < FINDING_BYTES / 8; i++)
        store_word(out + 8 * i, words[i]);
}

#endif
