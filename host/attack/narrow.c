/* A stack is made with makecontext and not with a thread: a thread's stack also
   holds the thread's own data, of which nobody says how much it is. */
#define _DEFAULT_SOURCE /* for MAP_ANONYMOUS */
#include "narrow.h"
#include "../call/show.h"

#include <stdint.h>
#include <string.h>
#include <sys/mman.h>
#include <ucontext.h>

/* The guard is wide, since a function with much on the stack may step over a
   single page. */
enum { GUARD = 1 << 20, PAINT = 0xd7 };

static uint8_t *stacks[NARROW_STACKS];
static ucontext_t here, there;

static uint8_t *make_stack(void)
{
    uint8_t *pages = mmap(NULL, NARROW_STACK + 2 * GUARD, PROT_NONE,
                          MAP_PRIVATE | MAP_ANONYMOUS, -1, 0);
    if (pages == MAP_FAILED ||
        mprotect(pages + GUARD, NARROW_STACK, PROT_READ | PROT_WRITE) != 0)
        give_up("stack");
    return memset(pages + GUARD, PAINT, NARROW_STACK);
}

void run_narrow(unsigned which, void (*work)(void))
{
    if (stacks[which] == NULL)
        stacks[which] = make_stack();
    if (getcontext(&there) != 0)
        give_up("getcontext");
    there.uc_stack.ss_sp = stacks[which];
    there.uc_stack.ss_size = NARROW_STACK;
    there.uc_link = &here;
    makecontext(&there, work, 0);
    if (swapcontext(&here, &there) != 0)
        give_up("swapcontext");
}

/* It grows down and is painted once, so what all calls together have left of
   the paint at its low end is what the deepest of them has left. */
size_t narrow_used(unsigned which)
{
    size_t left = 0;
    if (stacks[which] == NULL)
        return 0;
    while (left < NARROW_STACK && stacks[which][left] == PAINT)
        left++;
    return NARROW_STACK - left;
}
