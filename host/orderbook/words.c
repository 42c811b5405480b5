#include "words.h"

#include <stdarg.h>
#include <stdio.h>
#include <string.h>

bool is_blank(uint8_t byte)
{
    return byte == ' ' || byte == '\t';
}

bool is_digit(uint8_t byte)
{
    return byte >= '0' && byte <= '9';
}

bool is_letter(uint8_t byte)
{
    return (byte >= 'A' && byte <= 'Z') || (byte >= 'a' && byte <= 'z') ||
           (byte >= 128 && byte != NO_BREAK_SPACE);
}

struct span next_word(const struct ledger *l, struct cursor *c)
{
    const uint8_t *bytes = l->text.bytes;
    while (c->at < c->end && is_blank(bytes[c->at]))
        c->at++;
    struct span word = {c->at, 0};
    while (c->at < c->end && !is_blank(bytes[c->at]))
        c->at++;
    word.len = c->at - word.at;
    return word;
}

struct span rest_of(const struct ledger *l, struct cursor *c)
{
    const uint8_t *bytes = l->text.bytes;
    while (c->at < c->end && is_blank(bytes[c->at]))
        c->at++;
    struct span rest = {c->at, c->end - c->at};
    while (rest.len > 0 && is_blank(bytes[rest.at + rest.len - 1]))
        rest.len--;
    c->at = c->end;
    return rest;
}

size_t find_byte(const struct ledger *l, struct span in, uint8_t byte)
{
    const uint8_t *from = l->text.bytes + in.at;
    const uint8_t *found = in.len > 0 ? memchr(from, byte, in.len) : NULL;
    return found != NULL ? (size_t)(found - from) : in.len;
}

bool holds_byte(const struct ledger *l, struct span in, uint8_t byte)
{
    return find_byte(l, in, byte) < in.len;
}

bool is_word(const struct ledger *l, struct span word, const char *small)
{
    if (strlen(small) != word.len)
        return false;
    for (size_t i = 0; i < word.len; i++) {
        uint8_t byte = l->text.bytes[word.at + i];
        if (byte >= 'A' && byte <= 'Z')
            byte = (uint8_t)(byte - 'A' + 'a');
        if (byte != (uint8_t)small[i])
            return false;
    }
    return true;
}

/* A letter of another alphabet, a dash that is none, a blank that is none:
 * they look like what was expected, so the sentence names them. */
static void name_unusual(struct ledger *l, struct span at)
{
    size_t used = strlen(l->fault), left = sizeof l->fault - used;
    const struct stranger *s = first_stranger(&l->text, at.at, at.len);
    char letter[LETTER_ROOM];
    if (s != NULL) {
        bool mark = s->letter >= 0x300 && s->letter <= 0x36f;
        spell_letter(letter, s->letter);
        snprintf(l->fault + used, left,
                 " Here stands %s, which Windows-1250 has no place for%s.",
                 letter, mark ? ": a mark of its own on the letter before it; "
                                "write the two as one letter" : "");
    } else if (holds_byte(l, at, NO_BREAK_SPACE)) {
        snprintf(l->fault + used, left,
                 " Here stands a no-break space (U+00A0): only blanks and "
                 "tabs divide words.");
    }
}

bool fail(struct ledger *l, struct span at, const char *form, ...)
{
    va_list values;
    va_start(values, form);
    vsnprintf(l->fault, sizeof l->fault, form, values);
    va_end(values);
    l->fault_span = at;
    name_unusual(l, at);
    return false;
}

bool digits_in(const struct ledger *l, struct span at, uint64_t *number)
{
    uint64_t n = 0;
    for (size_t i = 0; i < at.len; i++) {
        uint8_t byte = l->text.bytes[at.at + i];
        if (!is_digit(byte))
            return false;
        uint64_t digit = byte - (uint64_t)'0';
        n = n > (UINT64_MAX - digit) / 10 ? UINT64_MAX : 10 * n + digit;
    }
    *number = n;
    return at.len > 0;
}

bool account_in(const struct ledger *l, struct span at,
                struct abo_account *account)
{
    struct span prefix = at, base = at;
    account->prefix = 0;
    if (!holds_byte(l, at, '-'))
        return digits_in(l, base, &account->base);
    prefix.len = find_byte(l, at, '-');
    base.at = at.at + prefix.len + 1;
    base.len = at.len - prefix.len - 1;
    return digits_in(l, prefix, &account->prefix) &&
           digits_in(l, base, &account->base);
}
