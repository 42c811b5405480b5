/*
 * The lines of a ledger, understood one by one and made into rows. Only forms
 * are tested here (digits, dashes, what must not be missing): whether an
 * account is valid or a due line may stand where it stands is for the library
 * to say, so that the rules are in one place. A line that could mean two
 * things means nothing, and is refused.
 */
#include "ledger_take.h"

#include <inttypes.h>
#include <string.h>

#include "../common/sheet_and_day.h"
#include "items.h"
#include "rows.h"
#include "texts.h"
#include "words.h"

enum { NUMBER_DIGITS = 6, COLLECTIONS = 1502 };

/* ---- What all lines share ---- */

/* "the client number is wanted here, as in `client 1234567890`." */
static bool wanted(struct ledger *l, struct span at, const char *what,
                   const char *as)
{
    return fail(l, at, "%s is wanted here, as in `%s`.", what, as);
}

static bool at_end(struct ledger *l, struct cursor *c, const char *as)
{
    struct span more = rest_of(l, c);
    return more.len == 0 ||
           fail(l, more, "nothing more should stand here: such a line is as "
                         "`%s`, and a comment has a line of its own.", as);
}

/* The header's lines may stand anywhere, but once. */
static bool is_first(struct ledger *l, unsigned field, struct span word)
{
    uint64_t line;
    if (l->head[field].len == 0)
        return true;
    ledger_line(l, l->head[field].at, &line);
    return fail(l, word, "such a line stands once in a ledger, and line "
                         "%" PRIu64 " is one already.", line);
}

/* ---- The header ---- */

static bool take_firm(struct ledger *l, struct cursor *c, struct span word)
{
    static const char what[] = "the firm's name";
    struct span name = rest_of(l, c), line_end = {c->end, 0};
    bool set_off;
    if (!is_first(l, ABO_HEADER_NAME, word) ||
        !take_text(l, &name, what, &set_off))
        return false;
    if (name.len == 0)
        return wanted(l, line_end, what, "firm Rybnik Pond s.r.o.");
    l->head[ABO_HEADER_NAME] = name;
    if (!l->firm)
        return true;
    if (name.len > ABO_NAME_BYTES)
        return fail(l, name, "the firm's name has %zu letters, and the file "
                             "has room for %d.", name.len, ABO_NAME_BYTES);
    memset(l->header.name, ' ', sizeof l->header.name);
    memcpy(l->header.name, l->text.bytes + name.at, name.len);
    return has_letters(l, name, what);
}

static bool take_client(struct ledger *l, struct cursor *c, struct span word)
{
    static const char as[] = "client 1234567890";
    struct span at = next_word(l, c);
    if (!is_first(l, ABO_HEADER_CLIENT, word))
        return false;
    if (!digits_in(l, at, &l->header.client))
        return wanted(l, at, "the client number", as);
    l->head[ABO_HEADER_CLIENT] = at;
    return at_end(l, c, as);
}

static bool take_interval(struct ledger *l, struct cursor *c, struct span word)
{
    static const char as[] = "interval 001 002";
    struct span from = next_word(l, c), to = next_word(l, c);
    if (!is_first(l, ABO_HEADER_FROM, word))
        return false;
    if (!digits_in(l, from, &l->header.from))
        return wanted(l, from, "the interval's start", as);
    if (!digits_in(l, to, &l->header.to))
        return wanted(l, to, "the interval's end", as);
    l->head[ABO_HEADER_FROM] = from;
    l->head[ABO_HEADER_TO] = to;
    return at_end(l, c, as);
}

/* ---- Payers, account files and groups ---- */

/* A payer line that no group comes behind has been meant for something. */
static bool payer_is_used(struct ledger *l)
{
    return !l->payer_waits ||
           fail(l, l->payer_span, "no group follows this payer: a due line is "
                                  "wanted behind it, and before another payer "
                                  "line.");
}

static bool take_payer(struct ledger *l, struct cursor *c, struct span word)
{
    static const char as[] = "payer 174-1999738514";
    struct span at = next_word(l, c);
    (void)word;
    if (!payer_is_used(l))
        return false;
    if (holds_byte(l, at, '/'))
        return fail(l, at, "the payer's account stands here without its bank, "
                           "which is that of the sheet: `%s`.", as);
    if (!account_in(l, at, &l->payer))
        return wanted(l, at, "the payer's account", as);
    l->payer_span = at;
    l->payer_waits = true;
    return at_end(l, c, as);
}

static bool take_file(struct ledger *l, struct cursor *c, struct span word)
{
    static const char as[] = "file 1501 001001";
    struct span kind_at = next_word(l, c), number_at = next_word(l, c);
    uint64_t kind, number;
    if (!digits_in(l, kind_at, &kind))
        return wanted(l, kind_at, "the account file's kind", as);
    if (number_at.len != NUMBER_DIGITS || !digits_in(l, number_at, &number))
        return wanted(l, number_at, "the account file's number of six digits",
                      as);
    if (!at_end(l, c, as) || !add_row(l, ABO_ROW_FILE, word))
        return false;
    set_number(l, ABO_FILE_KIND, kind, kind_at);
    set_number(l, ABO_FILE_NUMBER, number, number_at);
    l->collects = kind == COLLECTIONS;
    return true;
}

/* As on the command line, but for the word today: a ledger is read on other
 * days too. */
static bool day_in(const struct ledger *l, struct span at, uint64_t *day)
{
    char word[16];
    if (at.len >= sizeof word || at.len == 0 ||
        !is_digit(l->text.bytes[at.at]) || holds_byte(l, at, '\0'))
        return false;
    memcpy(word, l->text.bytes + at.at, at.len);
    word[at.len] = '\0';
    *day = day_named(word);
    return *day != 0;
}

static bool take_due(struct ledger *l, struct cursor *c, struct span word)
{
    static const char as[] = "due 2026-11-20";
    uint64_t day;
    struct span at = next_word(l, c);
    if (!day_in(l, at, &day))
        return fail(l, at, "a day is wanted here, with no blank in it: "
                           "2026-11-20, 20.11.2026 or 20261120.");
    if (l->payer_span.len == 0)
        return fail(l, word, "a payer line is wanted before this one, as "
                             "`payer 174-1999738514`.");
    if (!at_end(l, c, as) || !add_row(l, ABO_ROW_GROUP, word))
        return false;
    set_number(l, ABO_GROUP_DUE, day, at);
    set_account(l, ABO_GROUP_PAYER, l->payer, l->payer_span);
    l->payer_waits = false;
    return true;
}

/* ---- Lines ---- */

static bool take_line(struct ledger *l, struct cursor *c)
{
    static const struct {
        const char *word;
        bool (*take)(struct ledger *, struct cursor *, struct span);
    } kinds[] = {{"firm", take_firm},         {"client", take_client},
                 {"interval", take_interval}, {"payer", take_payer},
                 {"file", take_file},         {"due", take_due},
                 {"wage", take_wage},         {"invoice", take_invoice}};
    struct span word = next_word(l, c);
    if (word.len == 0 || l->text.bytes[word.at] == '#')
        return true;
    l->lines++;
    for (size_t i = 0; i < sizeof kinds / sizeof *kinds; i++)
        if (strlen(kinds[i].word) == word.len &&
            memcmp(kinds[i].word, l->text.bytes + word.at, word.len) == 0)
            return kinds[i].take(l, c, word);
    return fail(l, word, "no line of a ledger begins with this word. They "
                         "begin with firm, client, interval, payer, file, "
                         "due, wage or invoice in small letters, or with # "
                         "if they are comments.");
}

/* The header's lines may stand anywhere: they are missed at the end only. */
static bool all_there(struct ledger *l)
{
    struct span end = {l->text.len, 0};
    if (l->lines == 0)
        return fail(l, end, "the ledger is empty.");
    if (l->head[ABO_HEADER_NAME].len == 0)
        return fail(l, end, "the ledger has no firm line, as `firm Rybnik "
                            "Pond s.r.o.`.");
    if (l->head[ABO_HEADER_CLIENT].len == 0)
        return fail(l, end, "the ledger has no client line, as `client "
                            "1234567890`.");
    if (l->head[ABO_HEADER_FROM].len == 0)
        return fail(l, end, "the ledger has no interval line, as `interval "
                            "001 002`.");
    /* before all rows it is one of a batch that the library refuses */
    struct span last = ledger_span(l, l->count, ABO_FIELD_ROW);
    return l->count == 0 || l->payer_span.at < last.at || payer_is_used(l);
}

/* ---- The whole ledger ---- */

static bool is_encoded(struct ledger *l, const struct input *from,
                       enum encoding encoding)
{
    struct span at = {l->text.mistaken_at, 1}, front = {0, 1};
    bool little = from->len > 1 && memcmp(from->bytes, "\xff\xfe", 2) == 0;
    bool big = from->len > 1 && memcmp(from->bytes, "\xfe\xff", 2) == 0;
    if (little || big)
        return fail(l, front, "the ledger is UTF-16: save it as UTF-8.");
    if (l->text.mistaken && encoding == IN_UTF_8)
        return fail(l, at, "the ledger is taken for UTF-8, which this byte is "
                           "not. If it is Windows-1250, say so by --encoding "
                           "cp1250.");
    if (l->text.mistaken)
        return fail(l, at, "the ledger is UTF-8, by its letters: leave out "
                           "--encoding cp1250.");
    return true;
}

bool ledger_take(struct ledger *l, const struct input *from,
                 enum encoding encoding, uint64_t sheet)
{
    memset(l, 0, sizeof *l);
    /* C has a place for payees' names and none for the firm's */
    l->names = sheet == ABO_SHEET_C;
    l->firm = !l->names;
    if (!recode(&l->text, from, encoding))
        return fail(l, (struct span){l->text.len, 0},
                    "there is not enough memory for the ledger.");
    if (!is_encoded(l, from, encoding))
        return false;
    for (size_t at = 0; at < l->text.len;) {
        struct span line = line_from(l, at, &at);
        struct cursor words = {line.at, line.at + line.len};
        l->line++;
        if (!take_line(l, &words))
            return false;
    }
    return all_there(l);
}
