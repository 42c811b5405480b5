#include "sized.h"
#include "accounts.h"
#include "limits.h"
#include "plain.h"

#include <string.h>

enum {
    POOL = 509,
    MOST_FILES = 1000,
    MOST_ITEMS = 99999, /* of an account file */
    MOST_ITEMS_OF_S = 1000,
    CUT = 4000
};

/* How the items of a kind of file are spelled, and how many stand together. */
struct kind {
    const char *name;
    void (*put_item)(struct text *t, struct dice *d, unsigned sheet,
                     uint64_t *amount);
    size_t per_group, per_file;
    bool single;
    bool (*is_on)(unsigned sheet);
    unsigned of; /* what its account files hold */
    bool late;   /* the last line is missing */
};

/* Lines are drawn once and then copied, so that most of what is counted is the
   call that is measured. */
struct pool {
    struct text lines;
    size_t starts[POOL + 1];
    uint64_t amounts[POOL];
};

static void put_account(struct text *t, struct dice *d)
{
    struct account_value a = draw_account(d);
    if (a.prefix != 0) {
        text_number(t, a.prefix, 1);
        text_byte(t, '-');
    }
    text_number(t, a.base, 1);
}

/* The sheet's tail for a symbol and a message of two parts and a name. */
static void put_tail(struct text *t, unsigned sheet, const char *symbol,
                     const char *first, const char *second, const char *name)
{
    text_byte(t, ' ');
    text_words(t, symbol);
    text_byte(t, ' ');
    if (sheet != S)
        text_words(t, "AV:");
    text_words(t, first);
    if (sheet != S && second[0] != 0) {
        text_byte(t, '|');
        text_words(t, second);
    }
    if (sheet == C && name[0] != 0) {
        text_words(t, " NP:");
        text_words(t, name);
    }
}

/* One employer pays many: an amount, a number of the person, a short word. */
static void put_wage(struct text *t, struct dice *d, unsigned sheet,
                     uint64_t *amount)
{
    *amount = between(d, 1500000, 6500000);
    put_account(t, d);
    text_byte(t, ' ');
    text_number(t, *amount, 1);
    text_byte(t, ' ');
    text_number(t, between(d, 5000000000, 9999999999), 1);
    text_words(t, " 08000138");
    if (sheet == S || one_in(d, 2))
        put_tail(t, sheet, sheet == S ? "" : "0", "mzda 12/2017", "", "");
}

/* Each has its own payer, payee and text. */
static void put_invoice(struct text *t, struct dice *d, unsigned sheet,
                        uint64_t *amount)
{
    *amount = between(d, 10000, 99999999);
    put_account(t, d);
    text_byte(t, ' ');
    put_account(t, d);
    text_byte(t, ' ');
    text_number(t, *amount, 1);
    text_byte(t, ' ');
    text_number(t, between(d, 20170000, 20179999), 1);
    text_byte(t, ' ');
    text_number(t, between(d, 100, 8090), 4);
    text_words(t, "0308");
    put_tail(t, sheet, "17", "faktura za prosinec 2017",
             "dodaci list 2017/00934", "Kovo a sklo Brno s.r.o.");
}

static void put_shortest(struct text *t, struct dice *d, unsigned sheet,
                         uint64_t *amount)
{
    *amount = between(d, 1, 9);
    put_plain_item(t, sheet, *amount);
}

/* Every field as long as it may be. */
static void put_longest(struct text *t, struct dice *d, unsigned sheet,
                        uint64_t *amount)
{
    static const char part[] = "Zprava pro prijemce, 35 bytu dlouha";
    *amount = between(d, 1, 99999999);
    text_words(t, "500005-2267100237 500005-2267100237 ");
    text_number(t, *amount, sheet == S ? 12 : 14);
    text_words(t, " 1234567890 0003000558 1234567890 ");
    if (sheet != S)
        text_words(t, "AV:");
    text_words(t, part);
    for (int i = 0; sheet != S && i < 3; i++) {
        text_byte(t, '|');
        text_words(t, part);
    }
    if (sheet == C) {
        text_words(t, " NP:");
        text_words(t, part);
    }
}

/* Four parts that nearly hold ` NP:` all along, which C cuts. */
static void put_cut(struct text *t, struct dice *d, unsigned sheet,
                    uint64_t *amount)
{
    put_shortest(t, d, sheet, amount);
    text_words(t, " 0 AV:");
    for (int part = 0; part < 4; part++) {
        if (part > 0)
            text_byte(t, '|');
        for (size_t i = 0; i < CUT; i += 5)
            text_words(t, "NP NP");
    }
}

/* One byte more than is kept. */
static void put_warned(struct text *t, struct dice *d, unsigned sheet,
                       uint64_t *amount)
{
    put_shortest(t, d, sheet, amount);
    text_words(t, " 0 AV:Zprava pro prijemce, 36 bytu dlouha.");
}

static bool is_sheet(unsigned sheet)
{
    return sheet >= K && sheet <= LAST_SHEET;
}

static bool cuts(unsigned sheet)
{
    return sheet == C;
}

/* Collections are wages but for their kind, so that nothing but what is asked of
   their days makes them cost more. */
static const struct kind kinds[] = {
    {"wages", put_wage, 100, MOST_ITEMS, false, is_sheet, PAYMENTS, false},
    {"invoices", put_invoice, 12, MOST_ITEMS, true, is_sheet, PAYMENTS, false},
    {"shortest", put_shortest, 200, MOST_ITEMS, false, is_sheet, PAYMENTS, false},
    {"longest", put_longest, 100, MOST_ITEMS, true, is_sheet, PAYMENTS, false},
    {"groups", put_shortest, 1, MOST_ITEMS, false, is_sheet, PAYMENTS, false},
    {"files", put_shortest, 1, 1, false, is_sheet, PAYMENTS, false},
    {"collections", put_wage, 100, MOST_ITEMS, false, judges_collections,
     COLLECTIONS, false},
    {"cut", put_cut, 1, MOST_ITEMS, false, cuts, PAYMENTS, false},
    {"warned", put_warned, 100, MOST_ITEMS, false, cuts, PAYMENTS, false},
    {"late", put_wage, 100, MOST_ITEMS, false, is_sheet, PAYMENTS, true},
};

static const struct kind *kind_of(const char *name, unsigned sheet)
{
    for (size_t i = 0; i < COUNT_OF(kinds); i++)
        if (strcmp(kinds[i].name, name) == 0)
            return kinds[i].is_on(sheet) ? &kinds[i] : NULL;
    return NULL;
}

static void fill_pool(struct pool *p, const struct kind *kind, unsigned sheet)
{
    struct dice d = {sheet};
    for (size_t i = 0; i < POOL; i++) {
        p->starts[i] = p->lines.len;
        kind->put_item(&p->lines, &d, sheet, &p->amounts[i]);
        text_words(&p->lines, "\r\n");
    }
    p->starts[POOL] = p->lines.len;
}

static void put_group(struct text *t, const struct pool *p, bool single,
                      unsigned sheet, size_t first, size_t items)
{
    uint64_t sum = 0;
    for (size_t i = 0; i < items; i++)
        sum += p->amounts[(first + i) % POOL];
    text_words(t, "2 ");
    if (!single)
        text_words(t, "19-5152046 ");
    else if (empty_payer(sheet))
        text_byte(t, ' ');
    text_number(t, sum, 1);
    text_words(t, " 020118\r\n");
    for (size_t i = 0; i < items; i++) {
        size_t line = (first + i) % POOL, start = p->starts[line];
        text_bytes(t, p->lines.data + start, p->starts[line + 1] - start);
    }
    text_words(t, "3 +\r\n");
}

static size_t smaller(size_t a, size_t b)
{
    return a < b ? a : b;
}

/* At least one group, and none that begins past `bytes`. */
static void put_groups(struct sized_file *f, const struct pool *p,
                       const struct kind *kind, unsigned sheet, size_t most,
                       size_t bytes)
{
    size_t items = 0;
    while (items < most && (items == 0 || f->bytes.len < bytes)) {
        size_t count = smaller(kind->per_group, most - items);
        put_group(&f->bytes, p, kind->single, sheet, f->items, count);
        items += count;
        f->items += count;
        f->rows += 1 + count;
    }
}

bool make_sized_file(struct sized_file *file, unsigned sheet, const char *name,
                     size_t bytes)
{
    const struct kind *kind = kind_of(name, sheet);
    struct pool pool = {0};
    struct text *t = &file->bytes;
    size_t all = sheet == S ? MOST_ITEMS_OF_S : SIZE_MAX, files = 0;
    if (kind == NULL)
        return false;
    fill_pool(&pool, kind, sheet);
    file->items = file->rows = 0;
    text_clear(t);
    put_plain_first(t, sheet);
    text_words(t, "\r\n");
    do {
        put_plain_file(t, sheet, kind->of, files++ * 1000);
        text_words(t, "\r\n");
        file->rows++;
        put_groups(file, &pool, kind, sheet,
                   smaller(kind->per_file, all - file->items), bytes);
        text_words(t, "5 +\r\n");
    } while (files < MOST_FILES && file->items < all && t->len < bytes);
    if (kind->late)
        t->len -= strlen("5 +\r\n");
    text_free(&pool.lines);
    return true;
}
