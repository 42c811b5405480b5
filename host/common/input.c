/* Input of any size, read whole into bytes that grow, and the line of progress. */
#define _POSIX_C_SOURCE 200809L /* for isatty and fileno */
#include "input.h"

#include <errno.h>
#include <stdio.h>
#include <stdlib.h>
#include <string.h>
#include <unistd.h>

#include "names.h"

enum { MEBIBYTE = 1 << 20, FIRST_ROOM = 1 << 16 };

static int shown; /* characters of the line of progress that stands there now */

void end_progress(void)
{
    if (shown > 0)
        fprintf(stderr, "\r%*s\r", shown, "");
    shown = 0;
}

void say_progress(const struct input *in, const char *program, const char *doing)
{
    if (in->len < MEBIBYTE || !isatty(fileno(stderr)))
        return;
    end_progress();
    shown = fprintf(stderr, "%s: %s, %zu MiB", program, doing, in->len / MEBIBYTE);
    fflush(stderr);
}

/* Doubling keeps the copying in proportion to the input. */
static bool grow(struct input *in, size_t *room)
{
    size_t wider = *room == 0 ? FIRST_ROOM : *room * 2;
    uint8_t *bytes = wider > *room ? realloc(in->bytes, wider) : NULL;
    if (bytes == NULL)
        return false;
    in->bytes = bytes;
    *room = wider;
    return true;
}

/* Reads in portions of a mebibyte at most, so that a slow pipe shows its progress.  Gives back NULL or what went wrong. */
static const char *take_all(struct input *in, const char *program, FILE *from)
{
    size_t room = 0, said = 0, got;
    do {
        if (in->len == room && !grow(in, &room))
            return "there is not enough memory";
        size_t portion = room - in->len < MEBIBYTE ? room - in->len : MEBIBYTE;
        errno = 0;
        got = fread(in->bytes + in->len, 1, portion, from);
        in->len += got;
        if (in->len - said >= MEBIBYTE) {
            said = in->len;
            say_progress(in, program, "reading");
        }
    } while (got > 0);
    return ferror(from) ? strerror(errno) : NULL;
}

bool read_whole(struct input *in, const char *program, const char *name)
{
    bool standard = strcmp(name, "-") == 0;
    FILE *from = standard ? stdin : fopen(name, "rb");
    const char *fault = from == NULL ? strerror(errno) : take_all(in, program, from);
    end_progress();
    if (fault != NULL)
        tell_fault(program, name, "Standard input", "cannot be read", fault);
    if (from != NULL && !standard)
        fclose(from);
    return fault == NULL;
}
