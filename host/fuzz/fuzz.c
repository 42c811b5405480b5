/*
 * One call for the bytes of an input (fuzz_input.h), compared with the second
 * program; all slices lie at the edges of pages (ask_edges.h).
 *
 * With -DLIBFUZZER this is a target of clang's libFuzzer, which stops at a
 * difference (host/fuzz/fuzz.sh).  Else it is a program:
 *
 *   fuzz FILE ..                    runs inputs and counts
 *   fuzz -make FOLDER COUNT [SEED]  writes inputs: generated files, batches,
 *                                   statements, registers
 */
#include <stdio.h>
#include <stdlib.h>
#include <string.h>

#include "../call/call_made.h"
#include "../call/show.h"
#include "../generate/numbered.h"
#include "../generate/registers.h"
#include "../generate/statements.h"
#include "fuzz_input.h"

static struct scene scene;

/* The texts run on over the rows, so these two lie in one part of the scene. */
static void lend_batch(struct call *c, enum edge_at at)
{
    struct slice all = c->texts;
    size_t rows_at = (size_t)(c->file.bytes - c->texts.bytes);
    const uint8_t *name =
        edge_lend(&scene.parts[1], c->name.bytes, c->name.len, at, '0');
    all.len = rows_at + c->file.len;
    all.bytes = edge_lend(&scene.parts[0], all.bytes, all.len, at, '0');
    c->texts.bytes = all.bytes;
    c->file.bytes = all.bytes + rows_at;
    c->name.bytes = name;
    scene.parts_used = 2;
}

static void lend_input(struct fuzz_input *in)
{
    struct call *c = &in->call;
    enum edge_at at = in->at_back ? AT_BACK : AT_FRONT;
    struct edge *parts = scene.parts;
    if (c->which == WRITES && in->runs_on) {
        lend_batch(c, at);
        return;
    }
    c->file.bytes = edge_lend(&parts[0], c->file.bytes, c->file.len, at, '0');
    scene.parts_used = 1;
    if (c->which == WRITES) {
        c->texts.bytes =
            edge_lend(&parts[1], c->texts.bytes, c->texts.len, at, '0');
        c->name.bytes =
            edge_lend(&parts[2], c->name.bytes, c->name.len, at, '0');
        scene.parts_used = 3;
    }
}

/* NULL, or what is wrong.  The answer is that with the input's room. */
static const char *fault_of_input(const uint8_t *data, size_t len,
                                  enum which *which, struct outcome *o)
{
    struct fuzz_input in;
    *o = (struct outcome){0};
    *which = CALLS;
    if (!decode_input(&in, data, len))
        return NULL;
    enum edge_at at = in.at_back ? AT_BACK : AT_FRONT;
    lend_input(&in);
    scene.register_at = in.call.reg.len == 0 ? AT_NULL : at;
    *which = in.call.which;
    const char *fault = ask_edges(&scene, &in.call, 0, AT_NULL, 0x5a, o);
    if (fault != NULL || in.room == 0)
        return fault;
    size_t room = room_of_input(&in, o->needed);
    return ask_edges(&scene, &in.call, room, at, 0xa5, o);
}

#ifdef LIBFUZZER

int LLVMFuzzerTestOneInput(const uint8_t *data, size_t len);

int LLVMFuzzerTestOneInput(const uint8_t *data, size_t len)
{
    struct outcome o;
    enum which which;
    const char *fault = fault_of_input(data, len, &which, &o);
    if (fault != NULL) {
        printf("failed: %s\n", fault);
        show_last_call();
        fflush(stdout);
        abort();
    }
    return 0;
}

#else

static void run_file(const char *path)
{
    static struct text input;
    struct outcome o;
    enum which which = CALLS;
    const char *fault = "the file cannot be read";
    if (text_load(&input, path)) {
        in_hand(path, 0, input.data, input.len);
        fault = fault_of_input(input.data, input.len, &which, &o);
        if (which == CALLS)
            fault = "the input is too short to choose a call";
        else if (o.number < NUMBERS)
            edge_counts[which][o.number]++;
    }
    if (count_check(fault == NULL)) {
        printf("failed: %s: %s\n", path, fault);
        if (which != CALLS)
            show_last_call();
    }
}

static void save(const struct text *t, const char *folder, uint64_t seed)
{
    char path[4096];
    snprintf(path, sizeof path, "%s/made%llu", folder,
             (unsigned long long)seed);
    if (!text_save(t, path))
        give_up(path);
}

/* A register, and in one of two a file to be read against it, of K for the most
   part. */
static void make_register_input(struct text *input, uint64_t seed,
                                struct dice *d)
{
    static struct made made;
    static struct text reg;
    if (one_in(d, 4))
        generate(&made, seed);
    else
        generate_numbered(&made, seed);
    draw_register(&reg, d, &made.file);
    struct call c = call_of_registered(&made, &reg);
    if (one_in(d, 2))
        c = call_of_register((enum which)between(d, STARTS, GIVES_BACK), &reg);
    c.date = draw_date(d);
    c.given = draw_given(d, &reg);
    put_register_input(input, &c, d);
}

/* A file or a batch, or in every fourth input a statement, and in every eighth
   a register. */
static void make_input(struct text *input, uint64_t seed)
{
    static struct made made;
    static struct draft draft;
    static struct text statement;
    struct dice d = {seed};
    static const enum which asked[] = {READS, READS, READS, EXPLAINS, LISTS};
    enum which which = PICK(&d, asked);
    bool rows = one_in(&d, 2);
    if (seed % 8 == 5) {
        make_register_input(input, seed, &d);
    } else if (seed % 4 == 3 && rows) {
        draw_statement(&statement, seed);
        put_statement_input(input, WRITES_STATEMENT, &statement, &d);
    } else if (seed % 4 == 3) {
        generate_statement(&statement, seed);
        put_statement_input(input, READS_STATEMENT, &statement, &d);
    } else if (rows) {
        draw_draft(&draft, seed);
        put_draft_input(input, &draft, &d);
    } else {
        generate(&made, seed);
        if (one_in(&d, 8))
            put_line_input(input, &made, &d);
        else
            put_file_input(input, &made, which, &d);
    }
}

static void make_inputs(const char *folder, uint64_t count, uint64_t seed)
{
    struct text input = {0};
    for (uint64_t i = seed; i < seed + count; i++) {
        make_input(&input, i);
        save(&input, folder, i);
    }
    text_free(&input);
}

int main(int argc, char **argv)
{
    if (argc > 3 && strcmp(argv[1], "-make") == 0) {
        make_inputs(argv[2], strtoull(argv[3], NULL, 10),
                    argc > 4 ? strtoull(argv[4], NULL, 10) : 1);
        return 0;
    }
    catch_crashes();
    for (int i = 1; i < argc; i++)
        run_file(argv[i]);
    report_edges();
    return last_line();
}

#endif
