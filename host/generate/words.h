/* Numbers as they lie in bytes, lowest byte first, and the words of rows.  Rows
   count from 0. */
#ifndef HOST_WORDS_H
#define HOST_WORDS_H

#include <abo.h>

static inline uint64_t number_at(const uint8_t *bytes, size_t count)
{
    uint64_t number = 0;
    for (size_t i = count; i > 0; i--)
        number = number << 8 | bytes[i - 1];
    return number;
}

static inline uint64_t word_of(const uint8_t *rows, size_t row, size_t word)
{
    return number_at(rows + row * ABO_ROW_BYTES + 8 * word, 8);
}

static inline void set_word(uint8_t *rows, size_t row, size_t word,
                            uint64_t value)
{
    uint8_t *bytes = rows + row * ABO_ROW_BYTES + 8 * word;
    for (size_t i = 0; i < 8; i++, value >>= 8)
        bytes[i] = (uint8_t)value;
}

#endif
