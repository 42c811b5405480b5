/*
 * An item's line, from left to right. Only forms are tested here: whether an
 * account is valid or an amount too large is for the library to say, so that
 * the rules are in one place.
 */
#include "items.h"

#include <inttypes.h>

#include "keys.h"
#include "rows.h"
#include "texts.h"

/* The constant symbols that are customary, unless a line has its own. */
enum { WAGE_CONSTANT = 138, INVOICE_CONSTANT = 308 };
enum { BANK_DIGITS = 4 };

/* Behind the first word. */
static const char items_are[] =
    "NAME ACCOUNT/BANK AMOUNT vs=N [ks=N] [ss=N] [priority=N] [MESSAGE]";

static const char names_are[] =
    "a name of more than one word stands between quotation marks, as "
    "\"Jan Kapr\".";

/* ---- The name ---- */

/* Digits and what stands between the digits of accounts and amounts. */
static bool looks_like_number(const struct ledger *l, struct span word)
{
    bool digit = false;
    for (size_t i = 0; i < word.len; i++) {
        uint8_t byte = l->text.bytes[word.at + i];
        digit = digit || is_digit(byte);
        if (!is_digit(byte) && byte != '-' && byte != '/' && byte != '.' &&
            byte != ',')
            return false;
    }
    return digit;
}

static bool take_name_inside(struct ledger *l, struct cursor *c,
                             struct span *name)
{
    struct span mark = {name->at, 1};
    struct span rest = {name->at + 1, c->end - name->at - 1};
    size_t len = find_byte(l, rest, '"');
    if (len == rest.len)
        return fail(l, mark, "this name has no closing quotation mark.");
    *name = (struct span){rest.at, len};
    c->at = rest.at + len + 1;
    return c->at == c->end || is_blank(l->text.bytes[c->at]) ||
           fail(l, (struct span){c->at - 1, 1},
                "the name ends at this quotation mark, and a blank is wanted "
                "behind it.");
}

/* A name is one word, or stands between quotation marks. */
static bool take_name(struct ledger *l, struct cursor *c, struct span *name)
{
    *name = next_word(l, c);
    if (name->len == 0 || looks_like_number(l, *name) || is_keyed(l, *name))
        return fail(l, *name, "the payee's name is wanted here, before the "
                              "account: %s.", items_are);
    if (l->text.bytes[name->at] == '"')
        return take_name_inside(l, c, name);
    if (is_fancy_mark(l->text.bytes[name->at]) || holds_byte(l, *name, '"'))
        return fail(l, *name, "a name is set off by plain quotation marks at "
                              "both ends, as \"Jan Kapr\".");
    if (holds_byte(l, *name, NO_BREAK_SPACE))
        return fail(l, *name, "%s", names_are);
    return true;
}

/* ---- The payee ---- */

static bool begins_with(const struct ledger *l, struct span word, uint8_t byte)
{
    return word.len > 0 && l->text.bytes[word.at] == byte;
}

/* Does a word that is left of the line look like an account and its bank? */
static bool account_follows(const struct ledger *l, struct cursor c)
{
    struct span word;
    while ((word = next_word(l, &c)).len > 0)
        if (looks_like_number(l, word) && holds_byte(l, word, '/'))
            return true;
    return false;
}

/* A word that is no account with its bank: why, as far as the line shows. */
static bool no_payee(struct ledger *l, struct span word, struct cursor behind)
{
    static const char accounts_are[] =
        "an account with its bank is wanted here, and it has no blanks: "
        "19-19/0800";
    struct cursor c = behind;
    struct span next = next_word(l, &c);
    bool digits = looks_like_number(l, word) || begins_with(l, word, '-') ||
                  begins_with(l, word, '/');
    if (!digits && account_follows(l, behind))
        return fail(l, word, "%s", names_are);
    if (digits && looks_like_number(l, next) && holds_byte(l, next, '/') &&
        !begins_with(l, next, '/') && !begins_with(l, next, '-'))
        return fail(l, word, "%s; %s", accounts_are, names_are);
    return fail(l, word, "%s.", accounts_are);
}

static bool take_payee(struct ledger *l, struct cursor *c)
{
    struct abo_account account;
    uint64_t bank;
    struct span word = next_word(l, c), number = word, code;
    number.len = find_byte(l, word, '/');
    if (number.len == word.len || number.len + 1 == word.len)
        return no_payee(l, word, *c);
    code.at = word.at + number.len + 1;
    code.len = word.len - number.len - 1;
    if (!account_in(l, number, &account))
        return no_payee(l, word, *c);
    if (code.len != BANK_DIGITS || !digits_in(l, code, &bank))
        return fail(l, code, "the four digits of a bank are wanted here, as "
                             "in 19-19/0800.");
    set_account(l, ABO_ITEM_PAYEE, account, number);
    set_number(l, ABO_ITEM_BANK, bank, code);
    return true;
}

/* ---- The amount ---- */

/* Crowns, with no haléř or with two digits of them. What 64 bits do not hold
 * is the largest that they do, which the library refuses. */
static bool take_amount(struct ledger *l, struct cursor *c, struct span *at)
{
    *at = next_word(l, c);
    const uint8_t *text = l->text.bytes + at->at;
    uint64_t crowns, haler = 0;
    bool point = at->len > 3 &&
                 (text[at->len - 3] == '.' || text[at->len - 3] == ',');
    struct span whole = {at->at, at->len - (point ? 3 : 0)};
    struct span behind = {at->at + at->len - 2, 2};
    if ((point && !digits_in(l, behind, &haler)) ||
        !digits_in(l, whole, &crowns))
        return fail(l, *at, "an amount in crowns is wanted here: digits, and "
                            "two more behind a point or a comma if there are "
                            "haléře, as 24500, 24500.50 or 24500,50.");
    set_number(l, ABO_ITEM_AMOUNT,
               crowns > (UINT64_MAX - haler) / 100 ? UINT64_MAX
                                                   : 100 * crowns + haler,
               *at);
    return true;
}

/* ---- The line ---- */

/* Behind a payer line in the midst of a group, the item would still be paid
 * from the account of the group. */
static bool payer_stands(struct ledger *l, struct span word)
{
    uint64_t line;
    if (!l->payer_waits ||
        (last_kind(l) != ABO_ROW_GROUP && last_kind(l) != ABO_ROW_ITEM))
        return true;
    ledger_line(l, l->payer_span.at, &line);
    return fail(l, word, "the payer of line %" PRIu64 " is that of the groups "
                         "behind it: a due line is wanted before this line.",
                line);
}

/* The row of the line in hand, which is its reference: if the item is refused,
 * the line is found by it again. */
static bool add_item(struct ledger *l, struct span word)
{
    if (!add_row(l, ABO_ROW_ITEM, word))
        return false;
    set_number(l, ABO_ITEM_REFERENCE, l->line, word);
    return true;
}

static bool take_item(struct ledger *l, struct cursor *c, struct span word,
                      uint64_t constant)
{
    struct span name, amount;
    if (!payer_stands(l, word) || !add_item(l, word) ||
        !take_name(l, c, &name) || !take_payee(l, c) ||
        !take_amount(l, c, &amount))
        return false;
    set_number(l, ABO_ITEM_CONSTANT, constant, word);
    set_number(l, ABO_ITEM_PRIORITY, ABO_PRIORITY_USUAL, word);
    l->spans[l->count - 1][ABO_ITEM_PAYER] = l->payer_span;
    if (!take_keys(l, c, amount) || !take_message(l, c))
        return false;
    if (!l->names) {
        l->names_out += name.len > 0;
        return true;
    }
    if (!has_letters(l, name, "the payee's name"))
        return false;
    set_text(l, ABO_ITEM_NAME, name);
    return true;
}

bool take_wage(struct ledger *l, struct cursor *c, struct span word)
{
    if (l->collects)
        return fail(l, word, "a wage is paid, and an account file of kind "
                             "1502 takes money in: it has invoices alone.");
    return take_item(l, c, word, WAGE_CONSTANT);
}

bool take_invoice(struct ledger *l, struct cursor *c, struct span word)
{
    return take_item(l, c, word, INVOICE_CONSTANT);
}
