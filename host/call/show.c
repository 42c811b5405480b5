#define _DEFAULT_SOURCE /* for sigaltstack */
#include "show.h"

#include <signal.h>
#include <stdio.h>
#include <stdlib.h>
#include <unistd.h>

enum { SHOWN = 10, SHOWN_BYTES = 4000 };

static unsigned long passed, failed;

static struct {
    const char *what;
    uint64_t seed;
    const uint8_t *bytes;
    size_t len;
} hand;

bool count_check(bool ok)
{
    if (ok)
        passed++;
    else
        failed++;
    return !ok && failed <= SHOWN;
}

void check(bool ok, const char *what)
{
    if (count_check(ok))
        printf("failed: %s\n", what);
}

void show_bytes(const char *what, const uint8_t *bytes, size_t len)
{
    printf("  %s, %zu bytes: \"", what, len);
    for (size_t i = 0; i < len && i < SHOWN_BYTES; i++) {
        uint8_t byte = bytes[i];
        if (byte == '\n')
            fputs("\\n", stdout);
        else if (byte == '\r')
            fputs("\\r", stdout);
        else if (byte == '"' || byte == '\\')
            printf("\\%c", byte);
        else if (byte >= 32 && byte < 127)
            putchar(byte);
        else /* three octal digits, so that a digit behind is not taken in */
            printf("\\%03o", byte);
    }
    printf(len > SHOWN_BYTES ? "\" and more\n" : "\"\n");
}

void in_hand(const char *what, uint64_t seed, const uint8_t *bytes, size_t len)
{
    hand.what = what;
    hand.seed = seed;
    hand.bytes = bytes;
    hand.len = len;
}

/* The calls under test print nothing, so printing is safe here in practice. */
static void crashed(int number)
{
    failed++;
    printf("signal %d in: %s, seed %llu\n", number,
           hand.what != NULL ? hand.what : "?", (unsigned long long)hand.seed);
    if (hand.bytes != NULL)
        show_bytes("bytes", hand.bytes, hand.len);
    last_line();
    fflush(stdout);
    _exit(1);
}

void catch_crashes(void)
{
    static const int numbers[] = {SIGSEGV, SIGBUS, SIGILL, SIGFPE, SIGABRT};
    static uint8_t stack[1 << 16]; /* the usual one may be what overflowed */
    stack_t other = {.ss_sp = stack, .ss_size = sizeof stack};
    struct sigaction action = {.sa_handler = crashed, .sa_flags = SA_ONSTACK};
    sigaltstack(&other, NULL);
    for (size_t i = 0; i < sizeof numbers / sizeof *numbers; i++)
        sigaction(numbers[i], &action, NULL);
}

void give_up(const char *what)
{
    perror(what);
    exit(2);
}

int last_line(void)
{
    printf("%lu passed, %lu failed\n", passed, failed);
    return failed == 0 ? 0 : 1;
}
