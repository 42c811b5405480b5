/* An account as people write it. */
#ifndef HOST_COMMON_ACCOUNT_H
#define HOST_COMMON_ACCOUNT_H

#include <inttypes.h>
#include <stdio.h>

#include <abo.h>

/* "19-19", "705" where there is no prefix, nothing where there is no account.  Two numbers of 64 bits and what divides them take 42 bytes. */
static inline void spell_account(char *cell, size_t room, struct abo_account a)
{
    if (a.prefix != 0)
        snprintf(cell, room, "%" PRIu64 "-%" PRIu64, a.prefix, a.base);
    else if (a.base != 0)
        snprintf(cell, room, "%" PRIu64, a.base);
    else
        cell[0] = '\0';
}

#endif
