/* Bytes that grow at their end: files, rows and texts are put together here. */
#ifndef HOST_TEXT_H
#define HOST_TEXT_H

#include <stdbool.h>
#include <stddef.h>
#include <stdint.h>

struct text {
    uint8_t *data; /* never NULL once something was put, even of no bytes */
    size_t len, room;
};

void text_bytes(struct text *t, const void *bytes, size_t len);
void text_byte(struct text *t, uint8_t byte);
void text_repeat(struct text *t, uint8_t byte, size_t times);
void text_words(struct text *t, const char *words);
/* A number in at least so many digits. */
void text_number(struct text *t, uint64_t value, size_t digits);
/* So many bytes of a number, the lowest first; a word has all 8. */
void text_low_bytes(struct text *t, uint64_t number, size_t count);
void text_word(struct text *t, uint64_t word);
/* Puts other bytes in the place of some. */
void text_replace(struct text *t, size_t at, size_t removed, const void *bytes,
                  size_t len);
/* Takes all bytes of a file; false if it cannot be read. */
bool text_load(struct text *t, const char *path);
/* Makes them the file's bytes; false if it cannot be written whole. */
bool text_save(const struct text *t, const char *path);
void text_clear(struct text *t);
void text_free(struct text *t);

size_t digits_in(uint64_t value);

#endif
