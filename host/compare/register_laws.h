/* What a call that takes a register must leave, worked out in plain C from
   reading without one and from the bytes lent, number by number: so the second
   program is not the only one to be asked. */
#ifndef HOST_REGISTER_LAWS_H
#define HOST_REGISTER_LAWS_H

#include "ask_register.h"

/* Of a file read against a register, in room for so many bytes. */
void check_reading(const char *what, uint64_t seed, const struct call *c,
                   size_t room, const struct left *left);

/* Of a call that takes nothing but a register. */
void check_register(const char *what, uint64_t seed, const struct call *c,
                    const struct left *left);

/* An accepted file again: refused at its first account file; and accepted, once
   its numbers are given back, which leaves the register as it was. */
void check_again(const char *what, uint64_t seed, const struct call *c,
                 size_t room, const struct left *left);

#endif
