#include "wild.h"
#include "plan.h"
#include "words.h"

/* Numbers of bits from 1 to 63. */
static unsigned some_bits(struct dice *d)
{
    static const unsigned widths[] = {8, 16, 31, 32, 33, 48, 63};
    return one_in(d, 2) ? PICK(d, widths) : (unsigned)between(d, 1, 63);
}

uint64_t wild_number(struct dice *d, uint64_t real)
{
    static const uint64_t edges[] = {
        0, 1, 2, 3, 4, 5, 6, 127, 128, 255, 256, 257, 32767, 65535, 65536,
        INT32_MAX, UINT64_C(1) << 31, UINT32_MAX, UINT64_C(1) << 32, INT64_MAX,
        UINT64_C(1) << 63, UINT64_MAX - 1, UINT64_MAX, 19991231, 20000100,
        20000101, 20240229, 20230229, 20991231, 20991232, 21000101, 99991231,
    };
    unsigned bits = some_bits(d);
    switch (below(d, 7)) {
    case 0:
        return PICK(d, edges);
    case 1:
        return roll_bits(d);
    case 2: /* the real one, if the bits above were lost */
        return real + (roll(d) << bits);
    case 3:
        return real + (UINT64_C(1) << bits);
    case 4: /* the bits above are lost */
        return real & ((UINT64_C(1) << bits) - 1);
    case 5:
        return one_in(d, 2) ? ~real : 0 - real;
    default:
        return real ^ UINT64_C(1) << bits;
    }
}

/* A place and a length.  Tests that add them without care take them for a text
   inside the lent bytes. */
static void wild_text(uint8_t *rows, size_t row, size_t word, size_t texts_len,
                      struct dice *d)
{
    uint64_t little = below(d, 40), more = below(d, 80);
    uint64_t place = word_of(rows, row, word);
    uint64_t len = word_of(rows, row, word + 1);
    switch (below(d, 6)) {
    case 0: /* the sum is small */
        place = 0 - little;
        len = more;
        break;
    case 1:
        len = little - place;
        break;
    case 2: /* both halves of 2^64 */
        place = (UINT64_C(1) << 63) + little;
        len = (UINT64_C(1) << 63) + more;
        break;
    case 3: /* the last byte, or one or two too many */
        len = more % 36;
        place = texts_len - len + little % 3;
        break;
    case 4:
        place = texts_len + little % 3;
        len = more % 3;
        break;
    default: /* from the end of all numbers to their start */
        place = UINT64_MAX - little;
        len = little + more % 3;
    }
    set_word(rows, row, word, place);
    set_word(rows, row, word + 1, len);
}

void wild_word(struct text *rows, size_t texts_len, struct dice *d)
{
    enum { TEXTS = ABO_PARTS + 1 };
    if (rows->len < ABO_ROW_BYTES)
        return;
    size_t row = below(d, rows->len / ABO_ROW_BYTES);
    size_t word = below(d, ABO_ROW_WORDS);
    size_t text = ABO_ITEM_PART_1 + 2 * below(d, TEXTS);
    if (one_in(d, 3))
        wild_text(rows->data, row, text, texts_len, d);
    else
        set_word(rows->data, row, word,
                 wild_number(d, word_of(rows->data, row, word)));
}

void wild_length(struct text *rows, struct dice *d)
{
    size_t odd = between(d, 1, ABO_ROW_BYTES - 1);
    if (rows->len >= ABO_ROW_BYTES && one_in(d, 2))
        rows->len -= odd;
    else /* as if a row of a kind that may be due began there */
        while (odd-- > 0)
            text_byte(rows, rows->len % ABO_ROW_BYTES == 0 ? 3 : 0);
}

void wild_rows(struct text *rows, struct dice *d)
{
    size_t bytes = below(d, 6 * ABO_ROW_BYTES);
    text_clear(rows);
    while (rows->len < bytes)
        text_word(rows, one_in(d, 3) ? below(d, 4) : roll_bits(d));
    if (bytes >= ABO_ROW_BYTES && one_in(d, 2))
        set_word(rows->data, 0, 0, ABO_ROW_FILE); /* a look behind the first word */
    rows->len = bytes;
}

void wild_bytes(struct text *bytes, struct dice *d)
{
    bool plain = one_in(d, 2);
    text_clear(bytes);
    for (size_t len = below(d, 300); len > 0; len--)
        text_byte(bytes, plain ? telling_byte(d) : (uint8_t)roll(d));
}
