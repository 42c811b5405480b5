/* The calls for a day's register.  Each goes number by number; nothing is
   changed before all that can be refused has been tested. */
#include "register.h"
#include "peer.h"

struct peer_register_answer peer_register_start(uint64_t date, uint8_t *reg,
                                                size_t reg_len)
{
    if (!day_is_real(date))
        return (struct peer_register_answer){2, 0};
    if (reg_len < REGISTER_BYTES)
        return (struct peer_register_answer){16, REGISTER_BYTES};
    memset(reg, 0, REGISTER_BYTES);
    store_word(reg, date);
    return (struct peer_register_answer){0, 0};
}

struct peer_register_answer peer_register_lowest(const uint8_t *reg,
                                                 size_t reg_len)
{
    uint64_t n = 0;
    if (!register_is_sound((struct bytes){reg, reg_len}))
        return (struct peer_register_answer){23, 0};
    while (n < REGISTER_NUMBERS && number_is_marked(reg, n))
        n++;
    return (struct peer_register_answer){0, n};
}

struct peer_register_answer peer_register_free(const uint8_t *reg,
                                               size_t reg_len)
{
    uint64_t count = 0;
    if (!register_is_sound((struct bytes){reg, reg_len}))
        return (struct peer_register_answer){23, 0};
    for (uint64_t n = 0; n < REGISTER_NUMBERS; n++)
        if (!number_is_marked(reg, n))
            count++;
    return (struct peer_register_answer){0, count};
}

/* A number past the last one has no bit that may be asked. */
struct peer_register_answer peer_register_give_back(uint8_t *reg,
                                                    size_t reg_len, uint64_t n)
{
    if (!register_is_sound((struct bytes){reg, reg_len}))
        return (struct peer_register_answer){23, 0};
    if (n >= REGISTER_NUMBERS || !number_is_marked(reg, n))
        return (struct peer_register_answer){24, 0};
    unmark_number(reg, n);
    return (struct peer_register_answer){0, 0};
}
