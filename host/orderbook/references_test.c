/*
 * The references of a ledger's items, for host/orderbook/orderbook_test.sh.
 * Each is the number of its line, which is counted anew by the place of the
 * line's first word, and leads to that line. Then the last one is made 2^32, as
 * in a ledger of so many lines, and what is told of it goes to standard error.
 *
 *   references_test LEDGER
 */
#include <stdio.h>
#include <stdlib.h>

#include <abo.h>
#include "../call/show.h"
#include "../common/input.h"
#include "ledger_take.h"
#include "telling.h"

enum { DAY = 20261115 };

static void check_item(const struct ledger *l, uint64_t row)
{
    uint64_t number, reference = l->rows[row - 1].item.reference;
    struct span word = ledger_span(l, row, ABO_FIELD_ROW);
    struct span line = ledger_line(l, word.at, &number);
    struct abo_found found = abo_line(l->text.bytes, l->text.len, reference);
    check(reference == number, "a reference is not the number of its line");
    check(found.found == 1 && found.at == line.at && found.len == line.len,
          "a reference does not lead to its line");
}

/* Rows that are no items have none. */
static void check_rows(const struct ledger *l)
{
    uint64_t items = 0;
    for (uint64_t row = 1; row <= l->count; row++) {
        const union abo_row *r = &l->rows[row - 1];
        if (r->word[ABO_FIELD_ROW] != ABO_ROW_ITEM) {
            check(r->word[ABO_ITEM_REFERENCE] == 0,
                  "a row that is no item has a reference");
            continue;
        }
        items++;
        check_item(l, row);
    }
    check(items > 0, "the ledger has no items");
}

static void tell_too_large(struct ledger *l, const char *name)
{
    const struct order order = {name, ABO_SHEET_K, DAY};
    struct abo_header header = l->header;
    header.date = DAY;
    l->rows[l->count - 1].item.reference = UINT64_C(1) << 32;
    struct abo_written w =
        abo_write_rows(l->rows, l->count, l->text.bytes, l->text.len, &header,
                       ABO_SHEET_K, DAY, NULL, 0);
    check(w.number == ABO_NOT_A_BATCH && w.row == l->count &&
              w.field == ABO_ITEM_REFERENCE,
          "a reference of 2^32 is not what is refused");
    tell_unwritten(&order, l, w);
}

int main(int argc, char **argv)
{
    struct input in = {NULL, 0};
    struct ledger l;
    if (argc != 2 || !read_whole(&in, "references_test", argv[1]))
        return 2;
    bool taken = ledger_take(&l, &in, IN_UTF_8, ABO_SHEET_K);
    check(taken, "the ledger is not understood");
    if (taken) {
        check_rows(&l);
        tell_too_large(&l, argv[1]);
    }
    ledger_free(&l);
    free(in.bytes);
    return last_line();
}
