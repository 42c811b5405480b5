/*
 * What a register of the day's numbers costs.  Makes a file of K and has it
 * read, to be counted or timed:
 *
 *   register_cost none|read|registered|used KIND BYTES
 *   register_cost TIMES KIND BYTES
 *
 * `read` is without a register, `registered` against one with nothing marked,
 * and `used` against one in which the number of the last account file is, so
 * that it is refused there.  The second form runs the three TIMES times in turn,
 * and gives the median time of each.  host/generate/sized.h names the kinds.
 *
 *   registered none|lowest|free MARKED
 *
 * asks a register in which the numbers below MARKED are.  What is counted is
 * the difference to `none`.
 */
#define _POSIX_C_SOURCE 200809L
#include <stdio.h>
#include <stdlib.h>
#include <string.h>
#include <time.h>

#include "../host/generate/limits.h"
#include "../host/generate/memory.h"
#include "../host/generate/plain.h"
#include "../host/generate/sized.h"

enum { MOST_TIMES = 99, NONE = 0, READ, REGISTERED, USED, WAYS };

/* A file, the rows that it takes, and how many account files it has. */
struct lent {
    struct sized_file file;
    union abo_row *rows;
    uint64_t files;
};

static bool lend(struct lent *l, const char *kind, size_t bytes)
{
    memset(l, 0, sizeof *l);
    if (!make_sized_file(&l->file, K, kind, bytes))
        return false;
    l->rows = resized(NULL, l->file.rows * sizeof *l->rows);
    struct abo_answer a =
        abo_read_rows(l->file.bytes.data, l->file.bytes.len, K, PLAIN_TODAY,
                      l->rows, l->file.rows);
    for (uint64_t row = 0; row < a.rows; row++)
        l->files += l->rows[row].word[ABO_FIELD_ROW] == ABO_ROW_FILE;
    return a.number == ABO_ACCEPTED;
}

static uint64_t free_in(const struct abo_register *reg)
{
    return abo_register_free((const uint8_t *)reg, sizeof *reg).value;
}

/* The account files have the numbers from 0 on. */
static void mark(struct abo_register *reg, uint64_t number)
{
    reg->numbers[number / 64] |= UINT64_C(1) << number % 64;
}

/* Is it answered as it was made for? */
static bool call_once(struct lent *l, int way)
{
    struct abo_register reg = {.date = PLAIN_TODAY};
    const struct text *file = &l->file.bytes;
    struct abo_answer a = {0};
    if (way == USED)
        mark(&reg, l->files - 1);
    if (way == READ)
        a = abo_read_rows(file->data, file->len, K, PLAIN_TODAY, l->rows,
                          l->file.rows);
    else if (way != NONE)
        a = abo_read_rows_registered(file->data, file->len, K, PLAIN_TODAY,
                                     l->rows, l->file.rows, &reg);
    uint64_t marks = way == USED ? 1 : way == REGISTERED ? l->files : 0;
    return a.number == (way == USED ? ABO_NUMBER_USED : ABO_ACCEPTED) &&
           free_in(&reg) == ABO_REGISTER_NUMBERS - marks;
}

static double now(void)
{
    struct timespec t;
    clock_gettime(CLOCK_MONOTONIC, &t);
    return (double)t.tv_sec * 1e9 + (double)t.tv_nsec;
}

static int by_size(const void *a, const void *b)
{
    double x = *(const double *)a, y = *(const double *)b;
    return (x > y) - (x < y);
}

/* They take turns, the first one untimed, which makes the memory be there. */
static bool take_time(struct lent *l, int times)
{
    double took[WAYS][MOST_TIMES];
    bool well = true;
    for (int i = -1; i < times; i++)
        for (int way = READ; way < WAYS; way++) {
            double began = now();
            well = call_once(l, way) && well;
            if (i >= 0)
                took[way][i] = now() - began;
        }
    for (int way = READ; way < WAYS; way++)
        qsort(took[way], (size_t)times, sizeof took[way][0], by_size);
    printf("read_ns %.0f registered_ns %.0f used_ns %.0f\n",
           took[READ][times / 2], took[REGISTERED][times / 2],
           took[USED][times / 2]);
    return well;
}

static int usage(void)
{
    fputs("register_cost none|read|registered|used|TIMES KIND BYTES\n"
          "register_cost none|lowest|free MARKED\n",
          stderr);
    return 2;
}

static int ask(const char *what, uint64_t marked)
{
    struct abo_register reg = {.date = PLAIN_TODAY};
    const uint8_t *bytes = (const uint8_t *)&reg;
    struct abo_register_answer a = {0};
    if (marked > ABO_REGISTER_NUMBERS)
        return usage();
    for (uint64_t n = 0; n < marked; n++)
        mark(&reg, n);
    uint64_t due = 0;
    if (strcmp(what, "lowest") == 0) {
        due = marked;
        a = abo_register_lowest(bytes, sizeof reg);
    } else if (strcmp(what, "free") == 0) {
        due = ABO_REGISTER_NUMBERS - marked;
        a = abo_register_free(bytes, sizeof reg);
    } else if (strcmp(what, "none") != 0) {
        return usage();
    }
    return a.number != 0 || a.value != due;
}

int main(int argc, char **argv)
{
    static const char *const ways[WAYS] = {"none", "read", "registered",
                                           "used"};
    struct lent l;
    if (argc == 3)
        return ask(argv[1], strtoull(argv[2], NULL, 10));
    if (argc != 4)
        return usage();
    int way = NONE, times = atoi(argv[1]);
    while (way < WAYS && strcmp(argv[1], ways[way]) != 0)
        way++;
    if (way == WAYS && (times < 1 || times > MOST_TIMES))
        return usage();
    if (!lend(&l, argv[2], strtoul(argv[3], NULL, 10)))
        return usage();
    bool well = way < WAYS ? call_once(&l, way) : take_time(&l, times);
    printf("bytes %zu items %zu files %llu\n", l.file.bytes.len, l.file.items,
           (unsigned long long)l.files);
    free(l.rows);
    text_free(&l.file.bytes);
    return !well;
}
