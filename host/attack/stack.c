/*
 * The twelve calls on stacks of 64 KiB, on the files with the most lines of each
 * kind and on the corner files: each is explained, what is found in it is
 * listed, it is read and, if it says a batch, written again, it is read against a
 * register, and its lines are walked to the last; on statements of many records
 * and on many statements, which are read and written; and on registers with none
 * and with all numbers marked.  Code that calls itself once a line, or keeps a
 * line on the stack, does not come back from these.
 *
 *   stack [0 [SEED [STEP]]]     as seeds.h says; nothing is generated
 */
#define _DEFAULT_SOURCE /* for fork */
#include <signal.h>
#include <stdio.h>
#include <string.h>
#include <sys/wait.h>
#include <unistd.h>

#include "../call/call_made.h"
#include "../call/show.h"
#include "../generate/corners.h"
#include "../generate/dice.h"
#include "../generate/large.h"
#include "../generate/limits.h"
#include "../generate/registers.h"
#include "../generate/seeds.h"
#include "../generate/statements.h"
#include "ask_edges.h"
#include "narrow.h"

static struct scene scene;

static struct outcome ask(const char *what, unsigned place,
                          const struct call *c, size_t room)
{
    return check_edges(&scene, what, place, c, room, AT_BACK, 0x5a);
}

/* With no room, and with just what that says is needed. */
static struct outcome ask_exact(const char *what, unsigned place,
                                const struct call *c)
{
    struct outcome o = ask(what, place, c, 0);
    return o.number == ABO_NO_ROOM ? ask(what, place, c, (size_t)o.needed) : o;
}

static struct slice lend_part(size_t part, const uint8_t *bytes, size_t len)
{
    struct edge *e = &scene.parts[part];
    scene.parts_used = part + 1;
    return (struct slice){edge_lend(e, bytes, len, AT_BACK, '0'), len};
}

/* The rows that were read, with the file as the texts. */
static void write_again(const char *what, unsigned place, struct call c,
                        const struct outcome *read)
{
    c.which = WRITES;
    c.texts = c.file;
    c.file = lend_part(1, scene.ours.lent, (size_t)read->written);
    c.name = lend_part(2, read->name, sizeof read->name);
    give_header(&c, read);
    struct outcome w = ask_exact(what, place, &c);
    check(w.number == ABO_ACCEPTED, "what was read is not written again");
}

/* Against a register of its date with nothing marked: what is accepted still is,
   but on K not twice, since its numbers are used then. */
static void read_registered(const char *what, unsigned place, struct call c,
                            uint64_t due)
{
    static struct text reg;
    put_register(&reg, 20180101);
    c.which = READS_REGISTERED;
    c.reg = (struct held){reg.data, reg.len};
    uint64_t first = ask_exact(what, place, &c).number, second = due;
    if (c.sheet == K) {
        text_clear(&reg);
        text_bytes(&reg, scene.our_register.lent, scene.our_register.len);
        second = ask_exact(what, place, &c).number;
    }
    if (due == ABO_ACCEPTED)
        check(first == due &&
                  second == (c.sheet == K ? (uint64_t)ABO_NUMBER_USED : due),
              "a file is not read once against a register");
}

/* The refused line, and one that no file has, for which all are walked. */
static void find_lines(const char *what, unsigned place, struct call c,
                       uint64_t refused)
{
    c.which = FINDS;
    c.line = refused;
    ask(what, place, &c, 0);
    c.line = UINT64_MAX;
    ask(what, place, &c, 0);
}

/* Gives back the number that reading gave. */
static uint64_t test_file(const char *what, unsigned place,
                          const struct made *made)
{
    struct call c = call_of_made(EXPLAINS, made);
    c.file = lend_part(0, made->file.data, made->file.len);
    ask_exact(what, place, &c);
    c.which = LISTS;
    ask_exact(what, place, &c);
    c.which = READS;
    struct outcome read = ask_exact(what, place, &c);
    if (read.number == ABO_ACCEPTED)
        write_again(what, place, c, &read);
    read_registered(what, place, c, read.number);
    find_lines(what, place, c, read.words[0]);
    return read.number;
}

static void test_bulks(struct seeds seeds, unsigned sheet)
{
    static const struct {
        struct bulk bulk;
        uint64_t number, number_of_s;
    } list[] = {
        {{.files = 1, .groups = 99999, .items = 1}, 0, 15},
        {{.files = 1, .groups = 1, .items = 99999}, 0, 15},
        {{.files = 1000, .groups = 1, .items = 1}, 0, 0},
        {{.files = 1, .groups = 100000, .items = 1}, 15, 15},
        {{.files = 1001, .groups = 1, .items = 1}, 15, 15},
        {{.files = 1, .groups = 99999, .items = 1, .behind = ""}, 3, 15},
    };
    struct made made = {0};
    for (unsigned i = first_step(seeds, sheet); i < COUNT_OF(list);
         i += seeds.step) {
        uint64_t due = sheet == S ? list[i].number_of_s : list[i].number;
        make_bulk(&made, sheet, &list[i].bulk);
        check(test_file("bulk", i, &made) == due,
              "a large file has another number than it was made for");
    }
    text_free(&made.file);
}

/* Statements, read and written again as the same bytes. */
static void test_statements(void)
{
    static const struct {
        size_t statements, movements;
    } list[] = {{1, 100000}, {100000, 0}, {30000, 2}, {300, 300}};
    struct text file = {0};
    for (unsigned i = 0; i < COUNT_OF(list); i++) {
        put_many_statements(&file, list[i].statements, list[i].movements);
        struct call c = call_of_statement(READS_STATEMENT, &file);
        c.file = lend_part(0, file.data, file.len);
        struct outcome read = ask_exact("statements", i, &c);
        c.which = WRITES_STATEMENT;
        c.file = lend_part(0, scene.ours.lent, (size_t)read.written);
        struct outcome w = ask_exact("rows of statements", i, &c);
        check(read.number == ABO_ACCEPTED && w.number == ABO_ACCEPTED &&
                  w.written == file.len &&
                  memcmp(scene.ours.lent, file.data, file.len) == 0,
              "a large statement is not read, or not written as it was");
    }
    text_free(&file);
}

/* None is marked, then all; the last one is given back. */
static void test_registers(void)
{
    struct text reg = {0};
    put_register(&reg, 20180101);
    scene.parts_used = 0;
    for (unsigned full = 0; full < 2; full++) {
        for (enum which which = STARTS; which <= GIVES_BACK; which++) {
            struct call c = call_of_register(which, &reg);
            c.date = 20180102;
            c.given = ABO_REGISTER_NUMBERS - 1;
            struct outcome o = ask("register", full, &c, 0);
            check(o.number ==
                      (which == GIVES_BACK && !full ? ABO_NOT_TAKEN : 0),
                  "a register is answered otherwise than it was made for");
        }
        memset(reg.data + 8, 0xff, ABO_REGISTER_NUMBERS / 8);
    }
    text_free(&reg);
}

/* Work that takes a little more than there is must not come back, or nothing
   above would say anything. */
static void too_deep(void)
{
    volatile uint8_t much[NARROW_STACK + 16];
    for (size_t i = sizeof much; i > 0; i--)
        much[i - 1] = (uint8_t)i;
}

static void test_guard(void)
{
    int status = 0;
    fflush(stdout);
    pid_t child = fork();
    if (child == 0) {
        signal(SIGSEGV, SIG_DFL);
        fclose(stderr); /* the emulator and the sanitizers tell of it there */
        run_narrow(READS, too_deep);
        _exit(0);
    }
    check(child > 0 && waitpid(child, &status, 0) == child && status != 0,
          "more than 64 KiB of stack can be used");
}

int main(int argc, char **argv)
{
    struct seeds seeds = take_seeds(argc, argv, 0);
    struct made made = {0};
    catch_crashes();
    for (unsigned sheet = K; sheet <= LAST_SHEET; sheet++) {
        test_bulks(seeds, sheet);
        for (unsigned i = first_step(seeds, sheet);
             corner_file(&made, sheet, i); i += seeds.step)
            test_file("corner file", i, &made);
    }
    text_free(&made.file);
    test_statements();
    test_registers();
    report_edges();
    test_guard();
    return last_line();
}
