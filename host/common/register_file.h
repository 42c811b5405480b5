/*
 * The register of a day's numbers in a file of its own, just its 136 bytes.  Who changes it holds a lock from before it is read until after it is
 * replaced, so that of two programs at work at once neither loses what the other has marked.  It is replaced whole or not at all, so
 * who only looks at it needs no lock.
 *
 * The lock is that of the empty file REGISTER.lock beside it, which is made where it is not there, and stays.  The register's own file would
 * not do: it is replaced by another file of its name, and who had waited for the lock of the old one would hold that of a file that nobody
 * else opens any more; and where a day's first register is made there is no file yet.  A program that is ended, however that comes, holds
 * its lock no more.
 */
#ifndef HOST_COMMON_REGISTER_FILE_H
#define HOST_COMMON_REGISTER_FILE_H

#include <stdbool.h>
#include <stdint.h>
#include <stdio.h>

#include <abo.h>
#include "input.h"

struct register_file {
    const char *program, *name;
    uint64_t language;
    int lock;          /* below 0: not held */
    bool there;        /* the file was there */
    uint64_t found;    /* bytes that it has */
    struct input lent; /* the register for the library's calls; of a file of another length than a register's there is none */
    uint8_t bytes[ABO_REGISTER_BYTES];
};

/* Reads the register, to look at it alone; or holds its lock and reads it, and sees that it may be written to; or does so where it need not be
   there yet.  Where that fails, says why on standard error, and gives back false.  What is no register is read, but not held: it must not be
   replaced.  What is held must be let go. */
bool look_at_register(struct register_file *r, const char *program, uint64_t language, const char *name);
bool hold_register(struct register_file *r, const char *program, uint64_t language, const char *name);
bool hold_new_register(struct register_file *r, const char *program, uint64_t language, const char *name);

/* Puts the register's bytes in the file's place.  Where they are not there whole, says so on standard error, and gives back false: then the old
   file stands. */
bool keep_register(const struct register_file *r);

void let_go_register(struct register_file *r);

/* Is it laid out as a register? */
bool is_register(const struct register_file *r);

/* Its date, and how many numbers are marked; both 0 if it is none. */
uint64_t register_date(const struct register_file *r);
uint64_t register_marks(const struct register_file *r);

/* Why it is none, as a clause: "it has 135 bytes, and a register has 136". */
void print_malformed(FILE *to, const struct register_file *r);

/* "998 numbers are free on 2026-11-15, the lowest is 000". */
void print_free(FILE *to, const struct register_file *r);

/* Says on standard error that it is not laid out as a register, and why (23). */
void tell_malformed(const struct register_file *r);

/* A note that the sheet has no register, so that none was looked at. */
void note_no_register(FILE *to, uint64_t language, uint64_t sheet, const char *name);

#endif
