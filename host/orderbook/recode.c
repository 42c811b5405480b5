/* UTF-8 into Windows-1250, and the list of letters that are left over. */
#define _POSIX_C_SOURCE 200809L /* for strcasecmp and fmemopen */
#include "recode.h"

#include <inttypes.h>
#include <stdio.h>
#include <stdlib.h>
#include <string.h>
#include <strings.h>

#include "../common/letters.h"

/* What a stranger leaves behind: SUBSTITUTE, which no text may hold. */
enum { LEFT_BEHIND = 0x1a };

bool encoding_named(const char *word, enum encoding *encoding)
{
    static const struct {
        const char *word;
        enum encoding encoding;
    } spellings[] = {{"utf-8", IN_UTF_8},
                     {"utf8", IN_UTF_8},
                     {"cp1250", IN_WINDOWS_1250},
                     {"windows-1250", IN_WINDOWS_1250}};
    for (size_t i = 0; i < sizeof spellings / sizeof *spellings; i++)
        if (strcasecmp(word, spellings[i].word) == 0) {
            *encoding = spellings[i].encoding;
            return true;
        }
    return false;
}

static bool add_stranger(struct recoded *r, uint32_t letter)
{
    if (r->count == r->room) {
        size_t room = r->room == 0 ? 16 : 2 * r->room;
        struct stranger *more = realloc(r->strangers, room * sizeof *more);
        if (more == NULL)
            return false;
        r->strangers = more;
        r->room = room;
    }
    r->strangers[r->count++] = (struct stranger){r->len, letter};
    return true;
}

/* The first place is kept. */
static void mistaken_here(struct recoded *r, size_t at)
{
    if (!r->mistaken)
        r->mistaken_at = at;
    r->mistaken = true;
}

static bool recode_utf8(struct recoded *r, const uint8_t *bytes, size_t len)
{
    for (size_t at = 0, taken; at < len; at += taken) {
        uint32_t letter;
        taken = take_utf8(bytes + at, len - at, &letter);
        int byte = taken > 0 ? byte_in_1250(letter) : bytes[at];
        if (taken == 0) {
            mistaken_here(r, r->len);
            taken = 1;
        }
        if (byte == NO_BYTE && !add_stranger(r, letter))
            return false;
        r->bytes[r->len++] = (uint8_t)(byte == NO_BYTE ? LEFT_BEHIND : byte);
    }
    return true;
}

static void keep_1250(struct recoded *r, const uint8_t *bytes, size_t len)
{
    if (looks_like_utf8(bytes, len)) {
        size_t first = 0;
        while (bytes[first] < 128)
            first++;
        mistaken_here(r, first);
    }
    if (len > 0)
        memcpy(r->bytes, bytes, len);
    r->len = len;
}

bool recode(struct recoded *r, const struct input *from,
            enum encoding encoding)
{
    static const uint8_t mark[] = {0xef, 0xbb, 0xbf};
    bool marked = from->len >= sizeof mark &&
                  memcmp(from->bytes, mark, sizeof mark) == 0;
    size_t passed = marked ? sizeof mark : 0, len = from->len - passed;
    memset(r, 0, sizeof *r);
    r->bytes = malloc(len > 0 ? len : 1); /* no letter gets longer */
    if (r->bytes == NULL)
        return false;
    if (len > 0 && encoding == IN_UTF_8)
        return recode_utf8(r, from->bytes + passed, len);
    keep_1250(r, len > 0 ? from->bytes + passed : NULL, len);
    return true;
}

const struct stranger *first_stranger(const struct recoded *r, size_t at,
                                      size_t len)
{
    size_t low = 0, high = r->count;
    while (low < high) {
        size_t middle = low + (high - low) / 2;
        if (r->strangers[middle].at < at)
            low = middle + 1;
        else
            high = middle;
    }
    bool inside = low < r->count && r->strangers[low].at - at < len;
    return inside ? &r->strangers[low] : NULL;
}

/* Not control characters, marks on other letters, blanks, and what joins,
 * hides or turns round the letters beside it. */
static bool is_seen(uint32_t letter)
{
    static const struct {
        uint32_t from, to;
    } unseen[] = {{0x0000, 0x0020}, {0x007f, 0x00a0}, {0x00ad, 0x00ad},
                  {0x0300, 0x036f}, {0x061c, 0x061c}, {0x1680, 0x1680},
                  {0x180e, 0x180e}, {0x1ab0, 0x1aff}, {0x1dc0, 0x1dff},
                  {0x2000, 0x200f}, {0x2028, 0x202f}, {0x205f, 0x206f},
                  {0x20d0, 0x20ff}, {0x3000, 0x3000}, {0xd800, 0xf8ff},
                  {0xfe00, 0xfe0f}, {0xfe20, 0xfe2f}, {0xfeff, 0xfeff},
                  {0xfff0, 0xffff}, {0xe0000, 0x10ffff}};
    for (size_t i = 0; i < sizeof unseen / sizeof *unseen; i++)
        if (unseen[i].from <= letter && letter <= unseen[i].to)
            return false;
    return true;
}

void spell_letter(char text[LETTER_ROOM], uint32_t letter)
{
    FILE *to = fmemopen(text, LETTER_ROOM, "w");
    text[0] = '\0';
    if (to == NULL)
        return;
    fputs("the letter ", to);
    if (is_seen(letter)) {
        put_utf8(to, letter);
        fprintf(to, " (U+%04" PRIX32 ")", letter);
    } else {
        fprintf(to, "U+%04" PRIX32, letter);
    }
    fclose(to);
}

void recoded_free(struct recoded *r)
{
    free(r->bytes);
    free(r->strangers);
}
