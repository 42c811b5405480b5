/*
 * One of the library's calls against the second program's, on many files or
 * batches, each in one room.  The library is asked in a server's process, so
 * that it alone is emulated where it must be.
 *
 *   compare_many CALL FILES SEED SERVER ..
 *
 * CALL is read, write, explain, line, statement_read, statement_write, findings,
 * read_registered, register_start, register_lowest, register_free or
 * register_give_back.
 * SERVER is how it is started, as qemu-x86_64 build/library_server.
 */
#include <stdio.h>
#include <string.h>

#include "../call/call_made.h"
#include "../call/call_peer.h"
#include "../call/show.h"
#include "../generate/dice.h"
#include "../generate/draw_draft.h"
#include "../generate/numbered.h"
#include "../generate/plan.h"
#include "../generate/registers.h"
#include "../generate/seeds.h"
#include "../generate/statements.h"
#include "ask_server.h"

enum { ENOUGH = 20000, ENOUGH_FOR_RARE = 1000000 };

/* What would do, more, less, or none; any if that does not matter. */
static size_t choose_room(struct dice *d, const struct outcome *without)
{
    size_t exact = (size_t)without->needed;
    if (without->number != ABO_NO_ROOM)
        return one_in(d, 4) ? 0 : below(d, 1000);
    switch (below(d, 16)) {
    case 0:
        return 0;
    case 1:
        return exact - 1;
    case 2:
        return below(d, exact);
    case 3:
    case 4:
    case 5:
        return exact;
    default:
        return exact + between(d, 1, 2 * ABO_ROW_BYTES);
    }
}

static void ask(uint64_t seed, const struct call *call)
{
    struct dice d = {~seed};
    in_hand(call_names[call->which], seed, call->file.bytes, call->file.len);
    struct lent_call a = {.seed = seed, .call = *call};
    if (!of_register(call->which)) { /* these take no room, and do change it */
        struct outcome without = call_peer(call, NULL, 0);
        a.room = choose_room(&d, &without);
    }
    a.no_pointer = one_in(&d, 2);
    a.fill = telling_byte(&d);
    a.skew = (unsigned)below(&d, 16);
    ask_server(&a);
}

static void ask_files(struct seeds seeds, enum which which)
{
    struct made made = {0};
    for (uint64_t i = 0; i < seeds.count; i++) {
        struct dice lines = {seeds.first + i};
        generate(&made, seeds.first + i);
        struct call call = call_of_made(which, &made);
        if (which == FINDS)
            call.line = below(&lines, 24);
        ask(seeds.first + i, &call);
    }
    text_free(&made.file);
}

static void ask_batches(struct seeds seeds)
{
    struct draft draft = {0};
    for (uint64_t i = 0; i < seeds.count; i++) {
        draw_draft(&draft, seeds.first + i);
        struct call call = call_of_draft(&draft);
        ask(seeds.first + i, &call);
    }
    free_draft(&draft);
}

static void ask_statements(struct seeds seeds, enum which which)
{
    struct text bytes = {0};
    for (uint64_t i = 0; i < seeds.count; i++) {
        if (which == READS_STATEMENT)
            generate_statement(&bytes, seeds.first + i);
        else
            draw_statement(&bytes, seeds.first + i);
        struct call call = call_of_statement(which, &bytes);
        ask(seeds.first + i, &call);
    }
    text_free(&bytes);
}

static void ask_registered(struct seeds seeds)
{
    struct made made = {0};
    struct text reg = {0};
    for (uint64_t i = 0; i < seeds.count; i++) {
        struct dice d = {seeds.first + i};
        generate_for_register(&made, seeds.first + i);
        draw_register(&reg, &d, &made.file);
        struct call call = call_of_registered(&made, &reg);
        ask(seeds.first + i, &call);
    }
    text_free(&made.file);
    text_free(&reg);
}

static void ask_registers(struct seeds seeds, enum which which)
{
    struct text reg = {0};
    for (uint64_t i = 0; i < seeds.count; i++) {
        struct dice d = {seeds.first + i};
        draw_register(&reg, &d, NULL);
        struct call call = call_of_register(which, &reg);
        call.date = draw_date(&d);
        call.given = draw_given(&d, &reg);
        ask(seeds.first + i, &call);
    }
    text_free(&reg);
}

static bool register_can(enum which which, unsigned number)
{
    switch (number) {
    case ABO_ACCEPTED:
        return true;
    case ABO_BAD_TODAY:
    case ABO_NO_ROOM:
        return which == STARTS || which == READS_REGISTERED;
    case ABO_NUMBER_USED:
        return which == READS_REGISTERED;
    case ABO_BAD_REGISTER:
        return which != STARTS;
    case ABO_NOT_TAKEN:
        return which == GIVES_BACK;
    default:
        return which == READS_REGISTERED && number < ABO_NO_ROOM;
    }
}

static bool can_come(enum which which, unsigned number)
{
    if (which == FINDS)
        return number <= 1; /* not found, found */
    if (takes_register(which))
        return register_can(which, number);
    if (number == ABO_ACCEPTED || number == ABO_NO_ROOM)
        return true;
    if (of_statement(which))
        return number >= ABO_BAD_RECORD;
    if (which == READS)
        return number < ABO_NO_ROOM;
    return number <= ABO_BAD_TODAY ||
           (which == WRITES &&
            (number == ABO_NOT_A_BATCH || number == ABO_NOT_CARRIED));
}

/* Too many items come about once in a hundred thousand files, and hardly in
   those that are read against a register. */
static bool is_rare(struct seeds seeds, enum which which, unsigned number)
{
    return number == ABO_TOO_MANY &&
           (which == READS_REGISTERED || seeds.count < ENOUGH_FOR_RARE);
}

/* With enough files every number that the call can give must have come. */
static void report(struct seeds seeds, enum which which)
{
    bool tested = are_enough(seeds, ENOUGH);
    for (unsigned number = 0; number < NUMBERS; number++) {
        if (!can_come(which, number))
            continue;
        printf("number %2u: %lu\n", number, server_counts[number]);
        if (tested && !is_rare(seeds, which, number))
            check(server_counts[number] > 0, "a number never came");
    }
}

int main(int argc, char **argv)
{
    unsigned which = 0;
    while (argc > 4 && which < CALLS && strcmp(argv[1], call_names[which]) != 0)
        which++;
    if (argc <= 4 || which == CALLS) {
        fprintf(stderr, "compare_many: name a call, as read or register_free, "
                        "how many files, the first seed and the server.\n");
        return 2;
    }
    struct seeds seeds = take_seeds(3, argv + 1, 0);
    catch_crashes();
    begin_asking(argv + 4);
    if (of_statement((enum which)which))
        ask_statements(seeds, (enum which)which);
    else if (which == READS_REGISTERED)
        ask_registered(seeds);
    else if (of_register((enum which)which))
        ask_registers(seeds, (enum which)which);
    else if (which == WRITES)
        ask_batches(seeds);
    else
        ask_files(seeds, (enum which)which);
    end_asking();
    report(seeds, (enum which)which);
    return last_line();
}
