/* Lent bytes: text bytes, line ends, runs of digits and little-endian words.
   Places are offsets, so that a file and its answer count alike and an empty
   slice needs no pointer. */
#ifndef PEER_BYTES_H
#define PEER_BYTES_H

#include <stdbool.h>
#include <stddef.h>
#include <stdint.h>
#include <string.h>

struct bytes {
    const uint8_t *data;
    size_t len;
};

static inline bool is_text_byte(uint8_t byte)
{
    return byte >= 32 && byte != 127;
}

static inline bool starts_with(struct bytes b, size_t at, const char *what,
                               size_t len)
{
    return b.len - at >= len && memcmp(b.data + at, what, len) == 0;
}

/* Does the line end at this place? */
static inline bool line_ends(struct bytes b, size_t at)
{
    return at == b.len || b.data[at] == '\n' || b.data[at] == '\r';
}

/* Does a field end at this place? */
static inline bool field_ends(struct bytes b, size_t at)
{
    return line_ends(b, at) || b.data[at] == ' ';
}

static inline size_t line_end(struct bytes b, size_t at)
{
    while (!line_ends(b, at))
        at++;
    return at;
}

static inline size_t field_end(struct bytes b, size_t at)
{
    while (!field_ends(b, at))
        at++;
    return at;
}

/* From a line's end to the next line's start; CR LF is one end. */
static inline size_t next_line(struct bytes b, size_t at)
{
    if (at == b.len)
        return at;
    if (b.data[at] == '\r' && b.len - at >= 2 && b.data[at + 1] == '\n')
        return at + 2;
    return at + 1;
}

/* The first place from here on that holds no text byte, or the end.  Eight
   bytes at a time while all are text: the word tricks only ask whether any
   byte is below 32 or is 127, so the order of bytes does not matter. */
static inline size_t text_end(struct bytes b, size_t at)
{
    const uint64_t ones = UINT64_C(0x0101010101010101);
    while (b.len - at >= 8) {
        uint64_t word, gap;
        memcpy(&word, b.data + at, 8);
        gap = word ^ ones * 127;
        if ((((word - ones * 32) & ~word) | ((gap - ones) & ~gap)) & ones << 7)
            break;
        at += 8;
    }
    while (at < b.len && is_text_byte(b.data[at]))
        at++;
    return at;
}

/* A run of digits and the place behind it.  The value of a run too long for
   64 bits has wrapped; callers look at the length before the value. */
struct run {
    uint64_t value;
    size_t end;
};

static inline struct run digit_run(struct bytes b, size_t at)
{
    uint64_t value = 0;
    for (; at < b.len; at++) {
        unsigned digit = (unsigned)b.data[at] - '0';
        if (digit > 9)
            break;
        value = value * 10 + digit;
    }
    return (struct run){value, at};
}

/* Words are little-endian in lent bytes.  The host's order is a constant to the
   compiler, so on little-endian machines these are a plain load and store. */
static inline uint64_t little_endian(uint64_t word)
{
    const uint16_t one = 1;
    uint8_t first;
    memcpy(&first, &one, 1);
    if (first == 1)
        return word;
    word = (word & UINT64_C(0x00ff00ff00ff00ff)) << 8 |
           (word >> 8 & UINT64_C(0x00ff00ff00ff00ff));
    word = (word & UINT64_C(0x0000ffff0000ffff)) << 16 |
           (word >> 16 & UINT64_C(0x0000ffff0000ffff));
    return word << 32 | word >> 32;
}

static inline uint64_t load_word(const uint8_t *p)
{
    uint64_t word;
    memcpy(&word, p, sizeof word);
    return little_endian(word);
}

static inline void store_word(uint8_t *p, uint64_t word)
{
    word = little_endian(word);
    memcpy(p, &word, sizeof word);
}

#endif
