#define _DEFAULT_SOURCE /* for mmap */
#include "server.h"

#include <stdio.h>
#include <sys/mman.h>
#include <unistd.h>

static void make_calls(struct slot *slot, caller *make)
{
    for (slot->made = 0; slot->made < slot->count; slot->made++) {
        struct request *r = &slot->requests[slot->made];
        struct call call = call_of_request(r, slot->bytes);
        uint8_t *out =
            r->out.place == NOWHERE ? NULL : slot->bytes + r->out.place;
        r->answer = make(&call, out, (size_t)r->out.len);
    }
}

int run_server(caller *make)
{
    uint8_t number;
    struct slot *slots =
        mmap(NULL, SLOTS * sizeof *slots, PROT_READ | PROT_WRITE, MAP_SHARED,
             SHARED_MEMORY, 0);
    if (slots == MAP_FAILED) {
        perror("server: there is no memory to share");
        return 2;
    }
    while (read(STDIN_FILENO, &number, 1) == 1 && number < SLOTS) {
        make_calls(&slots[number], make);
        if (write(STDOUT_FILENO, &number, 1) != 1)
            return 2;
    }
    return 0;
}
