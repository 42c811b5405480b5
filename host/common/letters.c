/* The table of Windows-1250 from 0x80 on, and UTF-8 by RFC 3629. */
#include "letters.h"

static const uint16_t upper[128] = {
    0x20ac, NO_LETTER, 0x201a, NO_LETTER, 0x201e, 0x2026, 0x2020, 0x2021, /* 0x80 */
    NO_LETTER, 0x2030, 0x0160, 0x2039, 0x015a, 0x0164, 0x017d, 0x0179, /* 0x88 */
    NO_LETTER, 0x2018, 0x2019, 0x201c, 0x201d, 0x2022, 0x2013, 0x2014, /* 0x90 */
    NO_LETTER, 0x2122, 0x0161, 0x203a, 0x015b, 0x0165, 0x017e, 0x017a, /* 0x98 */
    0x00a0, 0x02c7, 0x02d8, 0x0141, 0x00a4, 0x0104, 0x00a6, 0x00a7, /* 0xa0 */
    0x00a8, 0x00a9, 0x015e, 0x00ab, 0x00ac, 0x00ad, 0x00ae, 0x017b, /* 0xa8 */
    0x00b0, 0x00b1, 0x02db, 0x0142, 0x00b4, 0x00b5, 0x00b6, 0x00b7, /* 0xb0 */
    0x00b8, 0x0105, 0x015f, 0x00bb, 0x013d, 0x02dd, 0x013e, 0x017c, /* 0xb8 */
    0x0154, 0x00c1, 0x00c2, 0x0102, 0x00c4, 0x0139, 0x0106, 0x00c7, /* 0xc0 */
    0x010c, 0x00c9, 0x0118, 0x00cb, 0x011a, 0x00cd, 0x00ce, 0x010e, /* 0xc8 */
    0x0110, 0x0143, 0x0147, 0x00d3, 0x00d4, 0x0150, 0x00d6, 0x00d7, /* 0xd0 */
    0x0158, 0x016e, 0x00da, 0x0170, 0x00dc, 0x00dd, 0x0162, 0x00df, /* 0xd8 */
    0x0155, 0x00e1, 0x00e2, 0x0103, 0x00e4, 0x013a, 0x0107, 0x00e7, /* 0xe0 */
    0x010d, 0x00e9, 0x0119, 0x00eb, 0x011b, 0x00ed, 0x00ee, 0x010f, /* 0xe8 */
    0x0111, 0x0144, 0x0148, 0x00f3, 0x00f4, 0x0151, 0x00f6, 0x00f7, /* 0xf0 */
    0x0159, 0x016f, 0x00fa, 0x0171, 0x00fc, 0x00fd, 0x0163, 0x02d9, /* 0xf8 */
};

uint32_t letter_of_1250(uint8_t byte)
{
    return byte < 128 ? byte : upper[byte - 128];
}

int byte_in_1250(uint32_t letter)
{
    if (letter < 128)
        return (int)letter;
    for (int i = 0; i < 128; i++)
        if (upper[i] == letter && letter != NO_LETTER)
            return i + 128;
    return NO_BYTE;
}

/* How many bytes a letter has that begins with this one, and the least letter that needs so many; 0 where none begins. */
static size_t length_from(uint8_t first, uint32_t *least)
{
    static const struct {
        uint8_t from, to;
        size_t length;
        uint32_t least;
    } starts[] = {{0x00, 0x7f, 1, 0}, {0xc2, 0xdf, 2, 0x80}, {0xe0, 0xef, 3, 0x800}, {0xf0, 0xf4, 4, 0x10000}};
    for (size_t i = 0; i < sizeof starts / sizeof *starts; i++)
        if (starts[i].from <= first && first <= starts[i].to) {
            *least = starts[i].least;
            return starts[i].length;
        }
    return 0;
}

static bool goes_on(uint8_t byte)
{
    return byte >> 6 == 2;
}

size_t take_utf8(const uint8_t *bytes, size_t len, uint32_t *letter)
{
    uint32_t least = 0;
    size_t length = len > 0 ? length_from(bytes[0], &least) : 0;
    if (length == 0 || length > len)
        return 0;
    *letter = length == 1 ? bytes[0] : bytes[0] & (0x7fU >> length);
    for (size_t i = 1; i < length; i++) {
        if (!goes_on(bytes[i]))
            return 0;
        *letter = *letter << 6 | (bytes[i] & 0x3f);
    }
    bool surrogate = *letter >= 0xd800 && *letter <= 0xdfff;
    return *letter < least || *letter > 0x10ffff || surrogate ? 0 : length;
}

void put_utf8(FILE *to, uint32_t letter)
{
    if (letter < 0x80) {
        fputc((int)letter, to);
        return;
    }
    int rest = letter < 0x800 ? 1 : letter < 0x10000 ? 2 : 3; /* bytes behind the first */
    fputc((int)((0xff00U >> (rest + 1) & 0xff) | letter >> 6 * rest), to);
    while (rest-- > 0)
        fputc((int)(0x80 | (letter >> 6 * rest & 0x3f)), to);
}

/* Do the last bytes begin a letter that more bytes would end? */
static bool cut_short(const uint8_t *bytes, size_t len)
{
    uint32_t least;
    if (length_from(bytes[0], &least) <= len)
        return false;
    for (size_t i = 1; i < len; i++)
        if (!goes_on(bytes[i]))
            return false;
    return true;
}

bool looks_like_utf8(const uint8_t *bytes, size_t len)
{
    bool above = false;
    for (size_t at = 0, length; at < len; at += length) {
        uint32_t letter;
        length = take_utf8(bytes + at, len - at, &letter);
        if (length == 0)
            return above && cut_short(bytes + at, len - at);
        above = above || length > 1;
    }
    return above;
}

/* A letter that a terminal shows in one column.  The no-break space would pass for a blank, and a soft hyphen is often not shown. */
static bool is_seen(uint32_t letter)
{
    return letter >= 32 && letter != 127 && letter != 0xa0 && letter != 0xad && letter != NO_LETTER;
}

void show_1250(FILE *to, const uint8_t *bytes, size_t len)
{
    for (size_t i = 0; i < len; i++) {
        uint32_t letter = letter_of_1250(bytes[i]);
        put_utf8(to, is_seen(letter) ? letter : NO_LETTER);
    }
}
