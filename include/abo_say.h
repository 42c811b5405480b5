/*
 * Words for people, over <abo.h>: what each number that the library returns means, what each field of a row or record is called and
 * what it may hold, and which bank each sheet is.  In English; what ends in _in also in Czech.  abo_tell.h has sentences.  Optional:
 * compile abo_say.c, which lies beside this file, into the program that wants it.
 *
 * Every text is UTF-8, lasts as long as the program, and is a clause that begins with a small letter and has no full stop, so that
 * it goes into a sentence: "refused at line 4: this is no valid account number."
 */
#ifndef ABO_SAY_H
#define ABO_SAY_H

#include <stdint.h>

#include <abo.h>

#ifdef __cplusplus
extern "C" {
#endif

/* Any other number than these stands for English. */
enum abo_language {
    ABO_ENGLISH = 0,
    ABO_CZECH = 1
};

/* What a number of any call says, as "the payee's bank is 0000". */
const char *abo_say_number(uint64_t number);

/* The number's name in abo.h, as "ABO_BAD_PAYEE_BANK"; NULL if it has none. */
const char *abo_say_constant(uint64_t number);

/* What a row is, by enum abo_row_kind: "account file", "group" or "item"; by enum abo_statement_row_kind: "head of a statement" or
   "movement"; 0 is "header", any other "row of no known kind". */
const char *abo_say_row(uint64_t row);

/* What a field is called, as "the payee's account".  `row` is an enum abo_row_kind and `field` an enum abo_field; or `row` is 0
   and `field` an enum abo_header_field; or they are an enum abo_statement_row_kind and an enum abo_statement_field.  NULL if there is
   no such field: among them 0, the row itself. */
const char *abo_say_field(uint64_t row, uint64_t field);

/* What a field may hold on every sheet, as "1 to 9999": what abo_write wants with 20, and abo_statement_write with 51.  NULL as
   above. */
const char *abo_say_allowed(uint64_t row, uint64_t field);

/* What a field may hold besides in a file of this sheet, as "5, since the sheet has no priority": what abo_write wants with 21.
   NULL where the sheet carries all that a batch may have there. */
const char *abo_say_carried(uint64_t sheet, uint64_t row, uint64_t field);

/* What an account file of a kind holds, in the plural: "payments" (1501), "collections" (1502), "priority payments" (1503),
   "instant payments" (1504); any other "items". */
const char *abo_say_items(uint64_t kind);

/* The same words in a language: each has its text in every language, or NULL in all.  Of an account file's items the word goes by
   their count: "payment" for 1, "payments" for others; "platba", "platby", "plateb". */
const char *abo_say_number_in(uint64_t language, uint64_t number);
const char *abo_say_row_in(uint64_t language, uint64_t row);
const char *abo_say_field_in(uint64_t language, uint64_t row, uint64_t field);
const char *abo_say_allowed_in(uint64_t language, uint64_t row, uint64_t field);
const char *abo_say_carried_in(uint64_t language, uint64_t sheet, uint64_t row, uint64_t field);
const char *abo_say_items_in(uint64_t language, uint64_t kind, uint64_t count);

/* A sheet's bank, as "ČSOB, previous edition"; NULL if there is no such sheet. */
const char *abo_say_bank_in(uint64_t language, uint64_t sheet);

/* What stands in a record of a statement: the place of its first byte in the record and how many bytes it has, what it is called, and
   what may stand there.  `row` is an enum abo_statement_row_kind and `place` what abo_statement_read gives as the byte, less the
   record's own.  NULL where nothing that is read begins: so with 0, as the type is no field. */
struct abo_record_words {
    uint64_t place, width;
    const char *noun, *allowed;
};
const struct abo_record_words *abo_say_record(uint64_t row, uint64_t place);

/* What a movement's code is called: "debit" (1), "credit" (2), "reversed debit" (4), "reversed credit" (5); any other NULL. */
const char *abo_say_code(uint64_t code);

/* A sheet: its letter, its bank's code as four digits, and the bank's name.  C and P, the edition before it, are one bank's.  NULL if
   there is no such sheet. */
struct abo_sheet_words {
    char letter;
    const char *code, *bank;
};
const struct abo_sheet_words *abo_say_sheet(uint64_t sheet);

#ifdef __cplusplus
}
#endif

#endif
