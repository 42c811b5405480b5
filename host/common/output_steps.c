/*
 * Output in steps, for host/common/output_test.sh: writes so many bytes to a target by write_whole, and has one step go wrong on the
 * way.  The C library's functions that take the steps are replaced by ones that know the fault.
 *
 *   output_steps TARGET BYTES [STEP FAULT] ..
 *
 * STEP is write (when half of the bytes are there), fsync, linkat, rename or unnamed (a file opened without a name).  FAULT is a
 * signal that comes at that step (KILL, TERM, INT, HUP) or a fault that the step has (IO, NOSPC, ACCES, OPNOTSUPP).  The exit status
 * is 0 if the output is whole, else 2.
 */
#define _GNU_SOURCE
#include <errno.h>
#include <fcntl.h>
#include <signal.h>
#include <stdarg.h>
#include <stdio.h>
#include <stdlib.h>
#include <string.h>
#include <sys/syscall.h>
#include <unistd.h>

#include "output.h"

static int arguments;
static char **argument;

/* Does the fault of this step: raises its signal, or gives back its number; 0 if nothing goes wrong. */
static int fault_of(const char *step)
{
    static const struct {
        const char *name;
        int sign, number;
    } faults[] = {{"KILL", SIGKILL, 0}, {"TERM", SIGTERM, 0}, {"INT", SIGINT, 0},         {"HUP", SIGHUP, 0},
                  {"IO", 0, EIO},       {"NOSPC", 0, ENOSPC}, {"ACCES", 0, EACCES}, {"OPNOTSUPP", 0, EOPNOTSUPP}};
    for (int i = 0; i + 1 < arguments; i += 2)
        for (size_t k = 0; k < sizeof faults / sizeof *faults; k++)
            if (strcmp(argument[i], step) == 0 && strcmp(argument[i + 1], faults[k].name) == 0) {
                if (faults[k].sign != 0)
                    raise(faults[k].sign);
                return faults[k].number;
            }
    return 0;
}

ssize_t write(int to, const void *bytes, size_t len)
{
    static int calls;
    if (len < 2 || to <= STDERR_FILENO || calls++ == 0)
        return syscall(SYS_write, to, bytes, len > 1 ? len / 2 : len);
    errno = fault_of("write");
    return errno != 0 ? -1 : syscall(SYS_write, to, bytes, len);
}

int fsync(int file)
{
    errno = fault_of("fsync");
    return errno != 0 ? -1 : (int)syscall(SYS_fsync, file);
}

int linkat(int from_folder, const char *from, int to_folder, const char *to, int flags)
{
    errno = fault_of("linkat");
    return errno != 0 ? -1 : (int)syscall(SYS_linkat, from_folder, from, to_folder, to, flags);
}

int rename(const char *from, const char *to)
{
    errno = fault_of("rename");
    return errno != 0 ? -1 : (int)syscall(SYS_renameat2, AT_FDCWD, from, AT_FDCWD, to, 0);
}

int open(const char *name, int flags, ...)
{
    va_list more;
    va_start(more, flags);
    int mode = (flags & O_CREAT) != 0 || (flags & O_TMPFILE) == O_TMPFILE ? va_arg(more, int) : 0;
    va_end(more);
    errno = (flags & O_TMPFILE) == O_TMPFILE ? fault_of("unnamed") : 0;
    return errno != 0 ? -1 : (int)syscall(SYS_openat, AT_FDCWD, name, flags, mode);
}

int main(int argc, char **argv)
{
    if (argc < 3 || argc % 2 == 0) {
        fputs("The first lines of host/common/output_steps.c say how it is used.\n", stderr);
        return 3;
    }
    size_t len = strtoul(argv[2], NULL, 10);
    uint8_t *bytes = malloc(len + 1);
    if (bytes == NULL)
        return 3;
    memset(bytes, 'n', len);
    /* what starts the tests may ignore some, and what is ignored stays so */
    static const int signs[] = {SIGTERM, SIGINT, SIGHUP};
    for (size_t i = 0; i < sizeof signs / sizeof *signs; i++)
        signal(signs[i], SIG_DFL);
    guard_output();
    arguments = argc - 3;
    argument = argv + 3;
    bool whole = write_whole("steps", argv[1], bytes, len);
    free(bytes);
    return whole ? 0 : 2;
}
