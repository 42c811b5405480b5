/*
 * Sentences for people in Czech and English, over <abo.h> and <abo_say.h>: what is found in a file, what each sheet makes of it, and why
 * rows are not written.  Optional: compile abo_tell.c and abo_say.c, which lie beside this file, into the program that wants them.
 *
 *     struct abo_finding f;
 *     struct abo_list l = abo_findings_of(file, len, ABO_SHEET_K, today, &f, 1);
 *     char text[ABO_TELL_BYTES];
 *     if (l.number == ABO_ACCEPTED && l.refused)
 *         abo_tell_finding(ABO_CZECH, &f, file, len, ABO_SHEET_K, today, text, sizeof text);
 *
 * Every text is UTF-8.  A sentence is put into lent room with a zero byte behind it, whole or not at all: a call gives back how many bytes
 * it has without that zero byte, and where the room is too small for it, what is put there is the empty text.  Bytes of a file
 * are quoted in printable ASCII, whatever they are.
 */
#ifndef ABO_TELL_H
#define ABO_TELL_H

#include <stddef.h>
#include <stdint.h>

#include <abo.h>
#include <abo_say.h>

#ifdef __cplusplus
extern "C" {
#endif

enum { ABO_TELL_BYTES = 1024 }; /* room that is enough for every sentence and its zero byte */

/* What a finding's field is called, by enum abo_found_field: "the payee's account", "účet příjemce"; and its name in abo.h,
   "ABO_FOUND_PAYEE".  NULL if there is no such field. */
const char *abo_tell_field(uint64_t language, uint64_t field);
const char *abo_tell_field_constant(uint64_t field);

/* What is wrong, by enum abo_cause: "it is zero", "je nulová"; and its name in abo.h, "ABO_CAUSE_AMOUNT_ZERO".  NULL if there is
   no such cause.  The text is a clause, with a small first letter and no full stop. */
const char *abo_tell_cause(uint64_t language, uint64_t cause);
const char *abo_tell_cause_constant(uint64_t cause);

/* A finding of abo_findings, with the file, sheet and day that it was found on, as a clause that names the field, the reason, what was found,
   and what is allowed or, of a warning, what becomes of it:
       the amount: it is zero; found "0"; allowed: 0.01 to 999999999999.99 crowns
       částka: je nulová; nalezeno: "0"; dovoleno: 0,01 až 999999999999,99 Kč
   A number that is none of abo.h's is told by its digits. */
size_t abo_tell_reason(uint64_t language, const struct abo_finding *f, const uint8_t *file, size_t len,
                       uint64_t sheet, uint64_t today, char *out, size_t out_len);

/* The same as a sentence with the place and, of a refusal, the number:
       Line 4, byte 41, the amount: it is zero; found "0"; allowed: 0.01 to 999999999999.99 crowns (6). */
size_t abo_tell_finding(uint64_t language, const struct abo_finding *f, const uint8_t *file, size_t len,
                        uint64_t sheet, uint64_t today, char *out, size_t out_len);

/* A file that abo_read_registered refused for its register has a finding too, though abo_findings, which takes no register, gives another one
   or none.  Of an answer with 22 or 23, and the file and the register that it was given for, this fills the finding and gives 1; of any other
   it gives 0 and leaves the finding as it was.  It is told like all others:
       the account file's number: its first three digits were used that day; found "001001"; allowed: first three digits that were not used
       that day, the lowest free being 003 */
int abo_tell_registered(const struct abo_answer *a, const uint8_t *file, size_t len, const uint8_t *reg, size_t reg_len,
                        struct abo_finding *f);

/* What a sheet makes of a file, by its answer and, if it is refused, its finding: "accepted, warnings 1", or "refused (8) at line 2, the
   payer's bank".  The answer is that of abo_findings with room for one finding or more, or with 16 one for which there was too little;
   with 1 and 2 it is what the number says. */
size_t abo_tell_verdict(uint64_t language, const struct abo_list *answer, const struct abo_finding *first,
                        char *out, size_t out_len);

/* Why abo_write or abo_statement_write refused, as a sentence.  `kind` is word 0 of the row that the answer names, 0 for the header and
   for a row that is missing:
       Row 3, item, the payee's bank: this is no batch on any sheet; allowed: 0001 to 9999 (20).
   `sheet` is the one that was written for; of statements it is not looked at. */
size_t abo_tell_written(uint64_t language, const struct abo_written *w, uint64_t kind, uint64_t sheet,
                        char *out, size_t out_len);

#ifdef __cplusplus
}
#endif

#endif
