#define _GNU_SOURCE /* for flock */
#include "register_file.h"

#include <errno.h>
#include <fcntl.h>
#include <inttypes.h>
#include <limits.h>
#include <string.h>
#include <sys/file.h>
#include <sys/stat.h>
#include <unistd.h>

#include <abo_say.h>
#include "names.h"
#include "output.h"
#include "sheet_and_day.h"

static bool in_czech(const struct register_file *r)
{
    return r->language == ABO_CZECH;
}

static bool fails(const struct register_file *r, const char *what, const char *why)
{
    tell_fault(r->program, r->name, r->name, what, why);
    return false;
}

/* ---- the lock ---- */

static const char suffix[] = ".lock";
enum { LOCK_ROOM = PATH_MAX + sizeof suffix };

/* By the name that links lead to, since all names of a register have one lock. */
static bool name_lock(const struct register_file *r, char lock[LOCK_ROOM])
{
    if (!follow_links(r->name, lock, PATH_MAX))
        return fails(r, "cannot be read", strerror(errno));
    strcat(lock, suffix);
    return true;
}

/* Another's lock may be only to be read, and can be locked all the same. */
static int open_lock(const char *lock)
{
    int held = open(lock, O_RDWR | O_CREAT | O_CLOEXEC, 0666), why = errno;
    if (held < 0 && why == EACCES)
        held = open(lock, O_RDONLY | O_CLOEXEC);
    errno = why;
    return held;
}

static bool wait_for(const struct register_file *r)
{
    if (flock(r->lock, LOCK_EX | LOCK_NB) == 0)
        return true;
    if (errno == EWOULDBLOCK && isatty(STDERR_FILENO))
        fprintf(stderr, in_czech(r) ? "%s: čeká se na jiný program, který registr používá.\n"
                                    : "%s: waiting for another program that uses the register.\n",
                r->program);
    while (flock(r->lock, LOCK_EX) != 0)
        if (errno != EINTR)
            return false;
    return true;
}

static bool take_lock(struct register_file *r)
{
    char lock[LOCK_ROOM];
    if (!name_lock(r, lock))
        return false;
    r->lock = open_lock(lock);
    if (r->lock >= 0 && wait_for(r))
        return true;
    tell_fault(r->program, lock, lock, "cannot be locked", strerror(errno));
    return false;
}

void let_go_register(struct register_file *r)
{
    if (r->lock >= 0)
        close(r->lock);
    r->lock = -1;
}

/* ---- reading and replacing ---- */

/* Who has none yet is told how a day is started. */
static bool not_there(const struct register_file *r)
{
    fails(r, "cannot be read", strerror(ENOENT));
    fprintf(stderr, in_czech(r) ? "%s: registr dne se zakládá příkazem `abo register start`.\n"
                                : "%s: `abo register start` starts the register of a day.\n",
            r->program);
    return false;
}

/* A file of a register's length is read; what is shorter or longer is none, and none of it is lent. */
static bool take_bytes(struct register_file *r, int from)
{
    struct stat there;
    size_t count = 0;
    ssize_t got = 0;
    if (fstat(from, &there) != 0)
        return fails(r, "cannot be read", strerror(errno));
    if (!S_ISREG(there.st_mode))
        return fails(r, "cannot be read", "it is no ordinary file");
    r->found = (uint64_t)there.st_size;
    if (r->found != sizeof r->bytes)
        return true;
    while (count < sizeof r->bytes && (got = read(from, r->bytes + count, sizeof r->bytes - count)) > 0)
        count += (size_t)got;
    if (got < 0)
        return fails(r, "cannot be read", strerror(errno));
    r->found = count; /* another program may have cut it meanwhile */
    r->lent.len = count == sizeof r->bytes ? count : 0;
    return true;
}

/* For reading and writing where it will be replaced, since a folder's rights alone are not enough for that. */
static bool read_register(struct register_file *r, bool to_write, bool may_lack)
{
    r->there = false;
    r->found = r->lent.len = 0;
    int from = open(r->name, (to_write ? O_RDWR : O_RDONLY) | O_NONBLOCK | O_NOCTTY | O_CLOEXEC);
    if (from < 0 && errno == ENOENT)
        return may_lack || not_there(r);
    if (from < 0)
        return fails(r, to_write ? "cannot be read and written" : "cannot be read", strerror(errno));
    r->there = true;
    bool taken = take_bytes(r, from);
    close(from);
    return taken;
}

static void name_register(struct register_file *r, const char *program, uint64_t language, const char *name)
{
    memset(r, 0, sizeof *r);
    r->program = program;
    r->language = language;
    r->name = name;
    r->lock = -1;
    r->lent.bytes = r->bytes;
}

/* It is read before, too: what is no register is never replaced, so that no lock is left beside it. */
static bool hold(struct register_file *r, bool may_lack)
{
    if (!read_register(r, true, may_lack))
        return false;
    if ((r->there && !is_register(r)) || (take_lock(r) && read_register(r, true, may_lack)))
        return true;
    let_go_register(r);
    return false;
}

bool look_at_register(struct register_file *r, const char *program, uint64_t language, const char *name)
{
    name_register(r, program, language, name);
    return read_register(r, false, false);
}

bool hold_register(struct register_file *r, const char *program, uint64_t language, const char *name)
{
    name_register(r, program, language, name);
    return hold(r, false);
}

bool hold_new_register(struct register_file *r, const char *program, uint64_t language, const char *name)
{
    name_register(r, program, language, name);
    return hold(r, true);
}

bool keep_register(const struct register_file *r)
{
    return write_whole(r->program, r->name, r->bytes, sizeof r->bytes);
}

/* ---- what it says ---- */

bool is_register(const struct register_file *r)
{
    return abo_register_free(r->lent.bytes, r->lent.len).number == ABO_ACCEPTED;
}

static uint64_t first_word(const struct register_file *r)
{
    struct abo_register reg;
    memcpy(&reg, r->bytes, sizeof reg);
    return reg.date;
}

uint64_t register_date(const struct register_file *r)
{
    return is_register(r) ? first_word(r) : 0;
}

uint64_t register_marks(const struct register_file *r)
{
    return is_register(r) ? ABO_REGISTER_NUMBERS - abo_register_free(r->lent.bytes, r->lent.len).value : 0;
}

/* With no room the library looks at the date alone. */
static bool is_day(uint64_t date)
{
    return abo_register_start(date, NULL, 0).number != ABO_BAD_TODAY;
}

void print_malformed(FILE *to, const struct register_file *r)
{
    if (r->lent.len == 0 && in_czech(r))
        fprintf(to, "počet jeho bajtů je %" PRIu64 ", a registr jich má %d", r->found, ABO_REGISTER_BYTES);
    else if (r->lent.len == 0)
        fprintf(to, "it has %" PRIu64 " byte%s, and a register has %d", r->found, r->found == 1 ? "" : "s", ABO_REGISTER_BYTES);
    else if (!is_day(first_word(r)))
        fputs(in_czech(r) ? "jeho datum není skutečným dnem let 2000 až 2099" : "its date is no real day of 2000 to 2099", to);
    else
        fputs(in_czech(r) ? "je v něm označeno číslo větší než 999" : "a number above 999 is marked in it", to);
}

void print_free(FILE *to, const struct register_file *r)
{
    uint64_t count = abo_register_free(r->lent.bytes, r->lent.len).value;
    uint64_t lowest = abo_register_lowest(r->lent.bytes, r->lent.len).value;
    if (in_czech(r))
        fputs(count > 0 ? "volných čísel na den " : "žádné číslo už není volné na den ", to);
    else if (count > 0)
        fprintf(to, "%" PRIu64 " number%s free on ", count, count == 1 ? " is" : "s are");
    else
        fputs("no number is free on ", to);
    put_day_in(to, r->language, first_word(r));
    if (count == 0)
        return;
    if (in_czech(r))
        fprintf(to, ": %" PRIu64, count);
    fprintf(to, in_czech(r) ? ", nejnižší %03" PRIu64 : ", the lowest is %03" PRIu64, lowest);
}

void tell_malformed(const struct register_file *r)
{
    fprintf(stderr, "%s: ", r->program);
    put_name(stderr, r->name);
    fputs(in_czech(r) ? " nemá podobu registru: " : " is not laid out as a register: ", stderr);
    print_malformed(stderr, r);
    fprintf(stderr, " (%d).\n", ABO_BAD_REGISTER);
}

void note_no_register(FILE *to, uint64_t language, uint64_t sheet, const char *name)
{
    char letter = abo_say_sheet(sheet)->letter;
    fprintf(to, language == ABO_CZECH ? "poznámka: list %c registr čísel nemá, takže do " : "note: sheet %c has no register of numbers, so ", letter);
    put_name(to, name);
    fputs(language == ABO_CZECH ? " se nenahlíželo.\n" : " was not looked at.\n", to);
}
