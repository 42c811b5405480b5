/*
 * abo_line against lines that plain C has cut (lines.h): no number, each line,
 * the file's end, past it, and the largest number; on generated files, corner
 * files, files of one account file too many, bytes without sense and all short
 * files of line ends and a letter.
 * And what abo_read refuses is looked up: the line of its number is found, and
 * its byte lies in that line or right behind the line's last byte.
 *
 *   compare_line [FILES [SEED [STEP]]]     as seeds.h says
 */
#include <stdio.h>

#include "../call/lend.h"
#include "../call/lines.h"
#include "../call/show.h"
#include "../generate/corners.h"
#include "../generate/dice.h"
#include "../generate/large.h"
#include "../generate/limits.h"
#include "../generate/seeds.h"
#include "../generate/wild.h"

/* Of a file with more lines, each of which is walked to from the start, only
   some are asked for. */
enum { ALL_ASKED = 100, SOME = 3, SHORT = 7, ENOUGH = 20000 };

static struct fence fence;
static struct lines lines;
static unsigned long refusals[ABO_NO_ROOM]; /* by number */
static unsigned long inside, behind, at_end;

/* The file in hand, and where it is lent. */
static const char *what;
static uint64_t seed;
static const struct made *made;
static const uint8_t *file;

static void show_found(const char *who, struct abo_found f)
{
    printf("  %s found %llu at %llu len %llu\n", who,
           (unsigned long long)f.found, (unsigned long long)f.at,
           (unsigned long long)f.len);
}

static struct abo_found ask(uint64_t number)
{
    struct abo_found a = abo_line(file, made->file.len, number);
    struct abo_found p = line_numbered(&lines, number);
    bool same = a.found == p.found && a.at == p.at && a.len == p.len;
    if (count_check(same)) {
        printf("failed: %s: the lines differ, seed %llu, line %llu\n", what,
               (unsigned long long)seed, (unsigned long long)number);
        show_bytes("file", made->file.data, made->file.len);
        show_found("abo:  ", a);
        show_found("plain:", p);
    }
    return a;
}

/* Zeros, or the line that holds the refusal's place. */
static void ask_refusal(void)
{
    struct abo_answer r = abo_read(file, made->file.len, made->sheet,
                                   made->today, NULL, 0);
    struct abo_found f = ask(r.line);
    bool judged = r.number >= ABO_BAD_ORDER && r.number <= ABO_TOO_MANY;
    bool holds = f.at <= r.byte && r.byte <= f.at + f.len;
    if (count_check(judged ? f.found == 1 && holds : f.found == 0)) {
        printf("failed: %s: number %llu at line %llu, byte %llu, which is "
               "not in the line found, seed %llu\n",
               what, (unsigned long long)r.number, (unsigned long long)r.line,
               (unsigned long long)r.byte, (unsigned long long)seed);
        show_bytes("file", made->file.data, made->file.len);
        show_found("abo:  ", f);
    }
    if (!judged)
        return;
    refusals[r.number]++;
    inside += r.byte < f.at + f.len;
    behind += r.byte == f.at + f.len && f.len > 0;
    at_end += f.at == made->file.len;
}

static void ask_lines(struct dice *d)
{
    size_t count = lines.count;
    for (size_t i = 1; i <= count && count <= ALL_ASKED; i++)
        ask(i);
    for (size_t i = 1; i <= SOME && count > ALL_ASKED; i++) {
        ask(i);
        ask(below(d, count));
        ask(count + 1 - i);
    }
}

static void compare_file(const char *name, uint64_t at, const struct made *m)
{
    struct dice d = {~at};
    size_t len = m->file.len;
    what = name;
    seed = at;
    made = m;
    in_hand(what, seed, m->file.data, len);
    file = lend_bytes(&fence, m->file.data, len, one_in(&d, 2));
    if (len == 0 && one_in(&d, 2))
        file = NULL;
    split_lines(&lines, m->file.data, len);
    ask(0);
    ask_lines(&d);
    ask(lines.count + 1);
    ask(lines.count + 2);
    ask(roll_bits(&d));
    ask(UINT64_MAX);
    ask_refusal();
    check(same_bytes(file, m->file.data, len), "the file was changed");
}

/* The file of so many bytes that a number spells in the base of three. */
static void short_file(struct made *m, size_t len, unsigned number)
{
    text_clear(&m->file);
    for (; len > 0; len--, number /= 3)
        text_byte(&m->file, (uint8_t)"\r\nx"[number % 3]);
    m->sheet = K + number % 4;
    m->today = 20180101;
}

static void compare_short_files(struct made *m)
{
    unsigned files = 1;
    for (size_t len = 0; len <= SHORT; len++, files *= 3)
        for (unsigned i = 0; i < files; i++) {
            short_file(m, len, i);
            compare_file("short file", i, m);
        }
}

static void compare_generated(struct made *m, uint64_t at)
{
    struct dice d = {at};
    generate(m, at);
    compare_file("generated file", at, m);
    wild_bytes(&m->file, &d);
    compare_file("bytes without sense", at, m);
}

static void report(struct seeds seeds)
{
    printf("refused inside a line: %lu, behind its last byte: %lu, at the "
           "file's end: %lu\n", inside, behind, at_end);
    check(inside > 0 && behind > 0 && at_end > 0, "a kind of place never came");
    if (!are_enough(seeds, ENOUGH))
        return;
    for (unsigned number = ABO_BAD_ORDER; number <= ABO_TOO_MANY; number++)
        check(refusals[number] > 0, "a number of a refusal never came");
}

/* No generated file is long enough to be refused for its length. */
static void compare_sheet(struct made *m, struct seeds seeds, unsigned sheet)
{
    struct bulk bulk = {.files = 1001, .groups = 1, .items = 1};
    make_bulk(m, sheet, &bulk);
    compare_file("a file too many", sheet, m);
    for (unsigned i = first_step(seeds, sheet); corner_file(m, sheet, i);
         i += seeds.step)
        compare_file("corner file", i, m);
}

int main(int argc, char **argv)
{
    struct seeds seeds = take_seeds(argc, argv, 100000);
    struct made m = {0};
    catch_crashes();
    for (uint64_t i = 0; i < seeds.count; i++)
        compare_generated(&m, seeds.first + i);
    for (unsigned sheet = K; sheet <= LAST_SHEET; sheet++)
        compare_sheet(&m, seeds, sheet);
    compare_short_files(&m);
    text_free(&m.file);
    report(seeds);
    return last_line();
}
