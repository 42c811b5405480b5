/* Output beside its target, put in the target's place when it is whole; and what a program does where it is ended meanwhile. */
#define _GNU_SOURCE /* for O_TMPFILE, where the system has it */
#include "output.h"

#include <errno.h>
#include <fcntl.h>
#include <limits.h>
#include <signal.h>
#include <stdio.h>
#include <string.h>
#include <sys/stat.h>
#include <unistd.h>

#include "names.h"

enum { NAME_ROOM = PATH_MAX + 64, LINKS = 40 };

/* The name that has to go if the program is ended now; empty if there is none. */
static char leftover[NAME_ROOM];

static const int ends[] = {SIGHUP, SIGINT, SIGQUIT, SIGTERM, SIGALRM, SIGXCPU};

/* Takes the leftover away and ends as the signal would have ended it. */
static void clean_up(int sign)
{
    if (leftover[0] != '\0')
        unlink(leftover);
    signal(sign, SIG_DFL);
    raise(sign);
}

/* Lets the signals wait, or come, so that a file never has a name that clean_up does not know. */
static void signals_wait(bool wait)
{
    sigset_t set;
    sigemptyset(&set);
    for (size_t i = 0; i < sizeof ends / sizeof *ends; i++)
        sigaddset(&set, ends[i]);
    sigprocmask(wait ? SIG_BLOCK : SIG_UNBLOCK, &set, NULL);
}

void guard_output(void)
{
    struct sigaction act = {0}, old;
    act.sa_handler = clean_up;
    for (size_t i = 0; i < sizeof ends / sizeof *ends; i++)
        /* what the caller had ignored, as nohup does, stays so */
        if (sigaction(ends[i], NULL, &old) == 0 && old.sa_handler != SIG_IGN)
            sigaction(ends[i], &act, NULL);
    signal(SIGPIPE, SIG_IGN);
    signal(SIGXFSZ, SIG_IGN);
    /* A standard descriptor that is closed would be given to the next file that is opened, and what is meant for a person would go
       into it.  It is kept taken, and using it fails as before. */
    for (int standard = 0; standard <= STDERR_FILENO; standard++)
        if (fcntl(standard, F_GETFD) < 0 && open("/dev/null", standard == 0 ? O_WRONLY : O_RDONLY) != standard)
            _exit(2);
}

static bool write_all(int to, const uint8_t *bytes, size_t len)
{
    while (len > 0) {
        ssize_t done = write(to, bytes, len);
        if (done < 0 && errno == EINTR)
            continue;
        if (done <= 0)
            return false;
        bytes += done;
        len -= (size_t)done;
    }
    return true;
}

bool same_file(const char *one, const char *other)
{
    struct stat a, b;
    return stat(one, &a) == 0 && stat(other, &b) == 0 && a.st_dev == b.st_dev && a.st_ino == b.st_ino;
}

/* By hand, because the name need not be there yet. */
bool follow_links(const char *name, char *target, size_t room)
{
    char seen[NAME_ROOM];
    if (snprintf(target, room, "%s", name) >= (int)room) {
        errno = ENAMETOOLONG;
        return false;
    }
    for (int i = 0; i < LINKS; i++) {
        ssize_t len = readlink(target, seen, PATH_MAX);
        if (len < 0)
            return true; /* no link, or nothing there */
        seen[len] = '\0';
        char *slash = strrchr(target, '/');
        size_t folder = seen[0] == '/' || slash == NULL ? 0 : (size_t)(slash - target) + 1;
        if (folder + (size_t)len >= room) {
            errno = ENAMETOOLONG;
            return false;
        }
        memcpy(target + folder, seen, (size_t)len + 1);
    }
    errno = ELOOP;
    return false;
}

/* A file that is being made: where it will stand, and where it stands now. */
struct making {
    char target[NAME_ROOM];
    char folder[NAME_ROOM];
    int to;
    bool named; /* it has the name `leftover` already */
};

static void split_folder(struct making *m)
{
    const char *slash = strrchr(m->target, '/');
    if (slash == NULL)
        strcpy(m->folder, ".");
    else
        snprintf(m->folder, sizeof m->folder, "%.*s", (int)(slash - m->target) + (slash == m->target), m->target);
}

/* A name beside the target that nothing has. */
static void choose_leftover(const struct making *m, int tried)
{
    const char *slash = strrchr(m->target, '/');
    int folder = slash == NULL ? 0 : (int)(slash - m->target) + 1;
    snprintf(leftover, sizeof leftover, "%.*s.abo-%ld-%d", folder, m->target, (long)getpid(), tried);
}

/* Makes a name for the file: a new file where it has none yet, else a link to the one that is open. */
static bool make_name(struct making *m, const char *held)
{
    for (int tried = 0; !m->named && tried < 100; tried++) {
        choose_leftover(m, tried);
        if (held == NULL)
            m->to = open(leftover, O_WRONLY | O_CREAT | O_EXCL, 0600);
        m->named = held == NULL ? m->to >= 0 : linkat(AT_FDCWD, held, AT_FDCWD, leftover, AT_SYMLINK_FOLLOW) == 0;
        if (m->named)
            return true;
        leftover[0] = '\0';
        if (errno != EEXIST)
            return false;
    }
    return m->named;
}

/* Opens a file with no name, so that nothing is left even where the program is killed; else one with a name. */
static bool open_beside(struct making *m)
{
    m->named = false;
#ifdef O_TMPFILE
    m->to = open(m->folder, O_TMPFILE | O_WRONLY, 0600);
    if (m->to >= 0)
        return true;
#endif
    signals_wait(true);
    bool made = make_name(m, NULL);
    signals_wait(false);
    return made;
}

/* The rights of the file that is replaced, or those that a new one would have. */
static bool keep_rights(const struct making *m)
{
    struct stat old;
    if (stat(m->target, &old) != 0) {
        mode_t mask = umask(0);
        umask(mask);
        return fchmod(m->to, 0666 & ~mask) == 0;
    }
    if (fchown(m->to, old.st_uid, old.st_gid) != 0 && geteuid() == 0)
        return false;
    return fchmod(m->to, old.st_mode & 07777) == 0;
}

/* The folder too is flushed, so that the new name outlives a power cut; where a folder cannot be, the file is there all the same. */
static void flush_folder(const struct making *m)
{
    int folder = open(m->folder, O_RDONLY | O_DIRECTORY);
    if (folder < 0)
        return;
    fsync(folder);
    close(folder);
}

/* Puts the file in the target's place; from its name to there no signal comes between. */
static bool put_in_place(struct making *m)
{
    char held[64];
    snprintf(held, sizeof held, "/proc/self/fd/%d", m->to);
    signals_wait(true);
    bool placed = make_name(m, held) && rename(leftover, m->target) == 0;
    if (placed)
        leftover[0] = '\0';
    signals_wait(false);
    return placed;
}

static const char *replace(struct making *m, const uint8_t *bytes, size_t len)
{
    static char why[128];
    split_folder(m);
    if (!open_beside(m)) {
        snprintf(why, sizeof why, "no file can be made beside it (%s)", strerror(errno));
        return why;
    }
    bool whole = write_all(m->to, bytes, len) && keep_rights(m) && fsync(m->to) == 0 && put_in_place(m);
    const char *fault = whole ? NULL : strerror(errno);
    close(m->to);
    if (leftover[0] != '\0')
        unlink(leftover);
    leftover[0] = '\0';
    if (whole)
        flush_folder(m);
    return fault;
}

/* A file that is there may be replaced only by who may write to it: a folder's rights alone are not enough. */
static bool may_write(const char *target)
{
    int to = open(target, O_WRONLY | O_NOCTTY | O_NONBLOCK);
    if (to >= 0)
        close(to);
    return to >= 0 || errno == ENOENT;
}

/* What is no ordinary file is written to as it is. */
static const char *write_through(const char *target, const uint8_t *bytes, size_t len)
{
    int to = open(target, O_WRONLY | O_NOCTTY);
    const char *fault = to < 0 || !write_all(to, bytes, len) ? strerror(errno) : NULL;
    if (to >= 0 && close(to) != 0 && fault == NULL)
        fault = strerror(errno);
    return fault;
}

/* Is the name another one for the standard output, as /dev/stdout is? */
static bool is_standard(const struct stat *there)
{
    struct stat standard;
    return fstat(STDOUT_FILENO, &standard) == 0 && there->st_dev == standard.st_dev && there->st_ino == standard.st_ino;
}

static const char *write_standard(const uint8_t *bytes, size_t len)
{
    return fflush(stdout) == 0 && write_all(STDOUT_FILENO, bytes, len) ? NULL : strerror(errno);
}

static const char *write_named(const char *name, const uint8_t *bytes, size_t len)
{
    struct making m;
    struct stat there;
    bool is_there = stat(name, &there) == 0;
    if (is_there && is_standard(&there))
        return write_standard(bytes, len);
    if (is_there && S_ISDIR(there.st_mode))
        return strerror(EISDIR);
    if (is_there && !S_ISREG(there.st_mode))
        return write_through(name, bytes, len);
    if (!follow_links(name, m.target, PATH_MAX) || !may_write(m.target))
        return strerror(errno);
    return replace(&m, bytes, len);
}

bool write_whole(const char *program, const char *name, const uint8_t *bytes,
                 size_t len)
{
    bool standard = name == NULL || strcmp(name, "-") == 0;
    const char *fault = standard ? write_standard(bytes, len) : write_named(name, bytes, len);
    if (fault != NULL)
        tell_fault(program, name, "Standard output", "could not be written whole", fault);
    return fault == NULL;
}
