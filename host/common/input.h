/* Input of a program: a file or standard input, read whole, with a line of progress while a large one is read and judged. */
#ifndef HOST_COMMON_INPUT_H
#define HOST_COMMON_INPUT_H

#include <stdbool.h>
#include <stddef.h>
#include <stdint.h>

struct input {
    uint8_t *bytes; /* NULL until something was read */
    size_t len;
};

/* Reads all of a file, or of standard input if its name is `-`.  Where that fails, says why on standard error in the program's
   name, and gives back false. */
bool read_whole(struct input *in, const char *program, const char *name);

/* Says on standard error, if that is a terminal and the input is large, what the program is doing with it; each such line takes
   the place of the one before. */
void say_progress(const struct input *in, const char *program, const char *doing);

/* Takes the line of progress away, so that the next output begins on a clear line. */
void end_progress(void);

#endif
