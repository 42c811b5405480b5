/*
 * Makes a file and has it read, explained, what is found in it listed, or
 * written again, to be counted or timed:
 *
 *   measure CALL none|abo|peer SHEET KIND BYTES
 *   measure CALL TIMES SHEET KIND BYTES
 *
 * CALL is read, write, explain, findings, read_registered, statement_read or
 * statement_write.
 * The first form is for a counter of instructions.  What a call executes is the
 * difference of two counts, with it and with `none`, so nothing has to be told
 * apart by names.  The second form runs the library and the second program
 * TIMES times in turn, compares what they leave in the lent bytes, and gives
 * the median time of each.  SHEET is K, S, C, E or P, or `-` for a statement;
 * host/generate/sized.h names the kinds, calls.h those of statements.
 */
#define _POSIX_C_SOURCE 200809L
#include <stdio.h>
#include <stdlib.h>
#include <string.h>
#include <time.h>

#include "../host/generate/memory.h"
#include "calls.h"

enum { MOST_TIMES = 99 };

static int usage(void)
{
    fputs("measure CALL none|abo|peer|TIMES SHEET KIND BYTES\n", stderr);
    return 2;
}

/* The place of a word in a list, or -1. */
static int place_of(const char *word, const char *const *list, int n)
{
    for (int i = 0; i < n; i++)
        if (strcmp(word, list[i]) == 0)
            return i;
    return -1;
}

static int by_size(const void *a, const void *b)
{
    double x = *(const double *)a, y = *(const double *)b;
    return (x > y) - (x < y);
}

static double now(void)
{
    struct timespec t;
    clock_gettime(CLOCK_MONOTONIC, &t);
    return (double)t.tv_sec * 1e9 + (double)t.tv_nsec;
}

static int count(struct lent *l, enum who who)
{
    size_t bytes = call_once(l, who);
    printf("bytes %zu items %zu\n", bytes, l->file.items);
    return bytes == 0;
}

/* Runs both once, which also makes their memory be there before it is timed. */
static bool same_left(struct lent *l)
{
    if (call_once(l, ABO) == 0)
        return false;
    size_t len = l->left;
    uint8_t *copy = resized(NULL, len);
    memcpy(copy, l->out, len);
    bool same = call_once(l, PEER) != 0 && l->left == len &&
                memcmp(copy, l->out, len) == 0;
    free(copy);
    return same;
}

static int take_time(struct lent *l, int times)
{
    double took[2][MOST_TIMES];
    if (!same_left(l)) {
        puts("the library and the second program differ");
        return 1;
    }
    size_t bytes = 0;
    for (int i = 0; i < times; i++)
        for (int who = ABO; who <= PEER; who++) {
            double began = now();
            bytes = call_once(l, (enum who)who);
            took[who - ABO][i] = now() - began;
        }
    for (int i = 0; i < 2; i++)
        qsort(took[i], (size_t)times, sizeof took[i][0], by_size);
    printf("bytes %zu items %zu abo_ns %.0f peer_ns %.0f\n", bytes,
           l->file.items, took[0][times / 2], took[1][times / 2]);
    return 0;
}

int main(int argc, char **argv)
{
    static const char *const whos[] = {"none", "abo", "peer"};
    static const char *const sheets[] = {"-", "K", "S", "C", "E", "P"};
    struct lent l;
    if (argc != 6)
        return usage();
    int call = place_of(argv[1], call_names, CALLS);
    int who = place_of(argv[2], whos, 3);
    int times = atoi(argv[2]), sheet = place_of(argv[3], sheets, 6);
    if (call < 0 || call == FINDS || of_register((enum which)call) || sheet < 0 ||
        of_statement((enum which)call) != (sheet == 0) || (who < 0 && (times < 1 || times > MOST_TIMES)))
        return usage();
    if (!lend_for(&l, (enum which)call, (unsigned)sheet, argv[4],
                  strtoul(argv[5], NULL, 10)))
        return usage();
    int status = who >= 0 ? count(&l, (enum who)who) : take_time(&l, times);
    give_back(&l);
    return status;
}
