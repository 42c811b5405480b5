#include "keys.h"

#include <stdio.h>
#include <string.h>

#include "rows.h"
#include "texts.h"

enum { VARIABLE, CONSTANT, SPECIFIC, PRIORITY, KEYS };

static const struct key {
    const char *name;
    unsigned word;
    size_t digits; /* at most */
    const char *is;
} keys[KEYS] = {
    [VARIABLE] = {"vs", ABO_ITEM_VARIABLE, 10,
                  "a variable symbol is 1 to 10 digits, as in vs=2611001."},
    [CONSTANT] = {"ks", ABO_ITEM_CONSTANT, 4,
                  "a constant symbol is 1 to 4 digits, as in ks=0308."},
    [SPECIFIC] = {"ss", ABO_ITEM_SPECIFIC, 10,
                  "a specific symbol is 1 to 10 digits, as in ss=17."},
    [PRIORITY] = {"priority", ABO_ITEM_PRIORITY, 1,
                  "a priority is one digit, 3 to 9, as in priority=7."}};

static const char keys_are[] = "vs=, ks=, ss= and priority=";

/* Which keys a line has, and where. */
struct given {
    struct span at[KEYS];
    bool any;
};

/* The key that these letters name, in small letters or not; KEYS if none. */
static unsigned key_named(const struct ledger *l, struct span letters)
{
    unsigned k = 0;
    while (k < KEYS && !is_word(l, letters, keys[k].name))
        k++;
    return k;
}

/* The key that the word begins with, spelled as it should be. */
static unsigned key_of(const struct ledger *l, struct span word)
{
    struct span letters = {word.at, find_byte(l, word, '=')};
    unsigned k = letters.len < word.len ? key_named(l, letters) : KEYS;
    bool small = k < KEYS && memcmp(l->text.bytes + word.at, keys[k].name,
                                    letters.len) == 0;
    return small ? k : KEYS;
}

bool is_keyed(const struct ledger *l, struct span word)
{
    size_t sign = find_byte(l, word, '=');
    if (sign == 0 || sign == word.len ||
        !is_letter(l->text.bytes[word.at]))
        return false;
    for (size_t i = 0; i < sign; i++) {
        uint8_t byte = l->text.bytes[word.at + i];
        if (!is_letter(byte) && !is_digit(byte) && byte != '_' && byte != '-')
            return false;
    }
    return true;
}

static bool take_key(struct ledger *l, struct span word, unsigned k,
                     struct given *given)
{
    size_t front = strlen(keys[k].name) + 1;
    struct span value = {word.at + front, word.len - front};
    uint64_t number;
    if (given->at[k].len > 0)
        return fail(l, word, "a key stands once in a line, and %s= stands "
                             "here already.", keys[k].name);
    if (value.len > keys[k].digits || !digits_in(l, value, &number))
        return fail(l, word, "%s", keys[k].is);
    given->at[k] = word;
    given->any = true;
    set_number(l, keys[k].word, number, value);
    return true;
}

static bool unknown_key(struct ledger *l, struct span word)
{
    struct span letters = {word.at, find_byte(l, word, '=')};
    unsigned k = key_named(l, letters);
    if (k < KEYS)
        return fail(l, word, "a key is written in small letters: %s=.",
                    keys[k].name);
    return fail(l, word, "there is no such key: they are %s. A message that "
                         "begins so stands between quotation marks.",
                keys_are);
}

/* Three digits behind one to three, and no further ones: thousands. */
static bool are_thousands(const struct ledger *l, struct span amount,
                          struct span word, struct cursor behind)
{
    uint64_t number;
    struct span more = next_word(l, &behind);
    return amount.len <= 3 && word.len == 3 &&
           digits_in(l, amount, &number) && digits_in(l, word, &number) &&
           !digits_in(l, more, &number);
}

/* A number where a key is wanted: the rest of an amount, or a symbol as it
 * was written in front of keys once. */
static bool bare_number(struct ledger *l, struct span word,
                        struct span amount, struct cursor behind)
{
    const char *text = (const char *)l->text.bytes;
    uint64_t number;
    bool symbol = word.len <= keys[VARIABLE].digits &&
                  digits_in(l, word, &number);
    char whole[16] = "24500", key[16] = "N";
    if (are_thousands(l, amount, word, behind))
        snprintf(whole, sizeof whole, "%.*s%.*s", (int)amount.len,
                 text + amount.at, (int)word.len, text + word.at);
    if (symbol)
        snprintf(key, sizeof key, "%.*s", (int)word.len, text + word.at);
    return fail(l, word, "an amount has no blanks: %s or %s.00. The variable "
                         "symbol is written with its key: vs=%s.",
                whole, whole, key);
}

/* Kč in both cases, Kc, CZK, korun. */
static bool is_unit(const struct ledger *l, struct span word)
{
    static const char *const units[] = {"k\xe8", "k\xc8", "kc", "czk",
                                        "korun"};
    for (size_t i = 0; i < sizeof units / sizeof *units; i++)
        if (is_word(l, word, units[i]))
            return true;
    return false;
}

static bool no_symbol(struct ledger *l, struct span word)
{
    if (is_unit(l, word))
        return fail(l, word, "an amount is in crowns and has no unit behind "
                             "it. The variable symbol is wanted here, as "
                             "vs=2611001, or vs=0 where there is none.");
    return fail(l, word, "the variable symbol is wanted here, before any "
                         "message: vs=2611001, with no blank in it, or vs=0 "
                         "where there is none.");
}

bool take_keys(struct ledger *l, struct cursor *c, struct span amount)
{
    struct given given = {{{0, 0}}, false};
    struct cursor before = *c;
    struct span word = next_word(l, c);
    for (unsigned k; (k = key_of(l, word)) < KEYS; word = next_word(l, c)) {
        if (!take_key(l, word, k, &given))
            return false;
        before = *c;
    }
    bool symbol = given.at[VARIABLE].len > 0;
    if (is_keyed(l, word))
        return unknown_key(l, word);
    if (word.len > 0 && is_digit(l->text.bytes[word.at]) && !symbol)
        return given.any ? no_symbol(l, word)
                         : bare_number(l, word, amount, *c);
    if (!symbol)
        return no_symbol(l, word);
    *c = before;
    return true;
}

/* The next piece of a message between blanks, bars and no-break spaces. */
static struct span next_piece(const struct ledger *l, struct cursor *c)
{
    static const char dividers[] = " \t|\xa0";
    enum { DIVIDERS = sizeof dividers - 1 };
    const uint8_t *bytes = l->text.bytes;
    while (c->at < c->end && memchr(dividers, bytes[c->at], DIVIDERS) != NULL)
        c->at++;
    struct span piece = {c->at, 0};
    while (c->at < c->end && memchr(dividers, bytes[c->at], DIVIDERS) == NULL)
        c->at++;
    piece.len = c->at - piece.at;
    return piece;
}

static bool begins_with_number(const struct ledger *l, struct span text)
{
    const uint8_t *bytes = l->text.bytes + text.at;
    bool sign = text.len > 1 && memchr("+-.,", bytes[0], 4) != NULL;
    return is_digit(bytes[sign]);
}

/* `KS 0308`, `vs:1`, `ss17`: a key that lacks its sign. */
static bool begins_with_key(const struct ledger *l, struct span word)
{
    struct span letters = {word.at, 0};
    while (letters.len < word.len &&
           is_letter(l->text.bytes[word.at + letters.len]))
        letters.len++;
    return key_named(l, letters) < KEYS;
}

static bool is_message(struct ledger *l, struct span text)
{
    struct cursor c = {text.at, text.at + text.len};
    struct span word = next_piece(l, &c);
    if (begins_with_number(l, text))
        return fail(l, word, "a message that begins with a number stands "
                             "between quotation marks, as \"24 hodin\".");
    if (begins_with_key(l, word))
        return fail(l, word, "this looks like a key: they are written %s, "
                             "with no blank. A message that begins so stands "
                             "between quotation marks.", keys_are);
    for (; word.len > 0; word = next_piece(l, &c)) {
        struct span letters = {word.at, find_byte(l, word, '=')};
        if (letters.len < word.len && key_named(l, letters) < KEYS)
            return fail(l, word, "keys stand before the message, and this "
                                 "one behind its beginning. A message that "
                                 "holds it stands between quotation marks.");
    }
    return true;
}

/* A fifth part stays in the fourth, with its `|`: the library refuses that. */
static void set_parts(struct ledger *l, struct span rest)
{
    for (unsigned i = 0; i < ABO_PARTS && rest.len > 0; i++) {
        struct span part = rest;
        if (i + 1 < ABO_PARTS)
            part.len = find_byte(l, rest, '|');
        set_text(l, ABO_ITEM_PART_1 + 2 * i, part);
        size_t used = part.len < rest.len ? part.len + 1 : part.len;
        rest.at += used;
        rest.len -= used;
    }
}

bool take_message(struct ledger *l, struct cursor *c)
{
    static const char what[] = "the message";
    struct span text = rest_of(l, c);
    bool set_off;
    if (!take_text(l, &text, what, &set_off) ||
        (!set_off && text.len > 0 && !is_message(l, text)) ||
        !has_letters(l, text, what))
        return false;
    set_parts(l, text);
    return true;
}
