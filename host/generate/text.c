#include "text.h"
#include "memory.h"

#include <string.h>

static void reserve(struct text *t, size_t more)
{
    if (t->data != NULL && more <= t->room - t->len)
        return;
    t->room = (t->len + more) * 2 + 64;
    t->data = resized(t->data, t->room);
}

void text_bytes(struct text *t, const void *bytes, size_t len)
{
    reserve(t, len);
    if (len > 0)
        memcpy(t->data + t->len, bytes, len);
    t->len += len;
}

void text_byte(struct text *t, uint8_t byte)
{
    reserve(t, 1);
    t->data[t->len++] = byte;
}

void text_repeat(struct text *t, uint8_t byte, size_t times)
{
    reserve(t, times);
    memset(t->data + t->len, byte, times);
    t->len += times;
}

void text_words(struct text *t, const char *words)
{
    text_bytes(t, words, strlen(words));
}

size_t digits_in(uint64_t value)
{
    size_t digits = 1;
    for (; value >= 10; value /= 10)
        digits++;
    return digits;
}

void text_number(struct text *t, uint64_t value, size_t digits)
{
    size_t own = digits_in(value);
    if (digits < own)
        digits = own;
    reserve(t, digits);
    t->len += digits;
    for (size_t i = 1; i <= digits; i++, value /= 10)
        t->data[t->len - i] = (uint8_t)('0' + value % 10);
}

void text_low_bytes(struct text *t, uint64_t number, size_t count)
{
    for (size_t i = 0; i < count; i++, number >>= 8)
        text_byte(t, (uint8_t)number);
}

void text_word(struct text *t, uint64_t word)
{
    text_low_bytes(t, word, 8);
}

void text_replace(struct text *t, size_t at, size_t removed, const void *bytes,
                  size_t len)
{
    reserve(t, len);
    memmove(t->data + at + len, t->data + at + removed, t->len - at - removed);
    if (len > 0)
        memcpy(t->data + at, bytes, len);
    t->len = t->len - removed + len;
}

bool text_load(struct text *t, const char *path)
{
    uint8_t bytes[4096];
    size_t len;
    FILE *f = fopen(path, "rb");
    text_clear(t);
    text_bytes(t, "", 0);
    if (f == NULL)
        return false;
    while ((len = fread(bytes, 1, sizeof bytes, f)) > 0)
        text_bytes(t, bytes, len);
    bool whole = !ferror(f);
    fclose(f);
    return whole;
}

bool text_save(const struct text *t, const char *path)
{
    FILE *f = fopen(path, "wb");
    bool whole = f != NULL && fwrite(t->data, 1, t->len, f) == t->len;
    return f != NULL && fclose(f) == 0 && whole;
}

void text_clear(struct text *t)
{
    reserve(t, 0);
    t->len = 0;
}

void text_free(struct text *t)
{
    free(t->data);
    *t = (struct text){0};
}
