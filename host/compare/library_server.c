/*
 * The library behind the comparison of many files: makes the calls that are
 * asked for in shared memory (shared_calls.h).  Started by compare_many.c, and
 * knows nothing of what is compared.
 */
#include "../call/call_abo.h"
#include "server.h"

int main(void)
{
    return run_server(call_abo);
}
