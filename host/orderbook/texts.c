#include "texts.h"

#include <string.h>

#include "../common/letters.h"

bool is_fancy_mark(uint8_t byte)
{
    /* „ “ ” ‚ ‘ ’ « » ‹ › in Windows-1250, apostrophe and grave */
    static const uint8_t marks[] = {0x84, 0x93, 0x94, 0x82, 0x91, 0x92,
                                    0xab, 0xbb, 0x8b, 0x9b, 0x27, 0x60};
    return memchr(marks, byte, sizeof marks) != NULL;
}

static bool take_inside(struct ledger *l, struct span *text, const char *what)
{
    struct span mark = {text->at, 1}, inside = {text->at + 1, text->len - 1};
    size_t end = find_byte(l, inside, '"');
    if (end == inside.len)
        return fail(l, mark, "%s begins with a quotation mark here, and the "
                             "line has no closing one at its end.", what);
    mark.at = inside.at + end;
    if (end + 1 < inside.len)
        return fail(l, mark, "the closing quotation mark ends the line: "
                             "nothing stands behind it, and no such mark "
                             "stands inside.");
    text->at = inside.at;
    text->len = end;
    return true;
}

/* A word that begins with # was meant for a comment. */
static bool has_comment(const struct ledger *l, struct span text,
                        struct span *word)
{
    struct cursor c = {text.at, text.at + text.len};
    for (*word = next_word(l, &c); word->len > 0; *word = next_word(l, &c))
        if (l->text.bytes[word->at] == '#') {
            word->len = text.at + text.len - word->at;
            return true;
        }
    return false;
}

static bool is_plain(struct ledger *l, struct span text, const char *what)
{
    struct span first = {text.at, 1}, last = {text.at + text.len - 1, 1};
    const uint8_t *bytes = l->text.bytes;
    struct span comment;
    if (is_fancy_mark(bytes[first.at]))
        return fail(l, first, "%s is set off by plain quotation marks (\"), "
                              "and by no others.", what);
    if (bytes[first.at] == NO_BREAK_SPACE)
        return fail(l, first, "%s begins with a letter or a sign.", what);
    if (bytes[last.at] == NO_BREAK_SPACE)
        return fail(l, last, "%s ends with a letter or a sign.", what);
    if (has_comment(l, text, &comment))
        return fail(l, comment, "a comment has a line of its own, which "
                                "begins with #; %s that holds such a word "
                                "stands between quotation marks.", what);
    return true;
}

bool take_text(struct ledger *l, struct span *text, const char *what,
               bool *set_off)
{
    *set_off = text->len > 0 && l->text.bytes[text->at] == '"';
    if (*set_off)
        return take_inside(l, text, what);
    return text->len == 0 || is_plain(l, *text, what);
}

bool has_letters(struct ledger *l, struct span text, const char *what)
{
    const struct stranger *s = first_stranger(&l->text, text.at, text.len);
    if (s != NULL)
        return fail(l, (struct span){s->at, 1}, "%s goes into the file.",
                    what);
    for (size_t i = text.at; i < text.at + text.len; i++)
        if (letter_of_1250(l->text.bytes[i]) == NO_LETTER)
            return fail(l, (struct span){i, 1},
                        "%s goes into the file. Here stands the byte 0x%02x, "
                        "which is no letter of Windows-1250.",
                        what, l->text.bytes[i]);
    return true;
}
