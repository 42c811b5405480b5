#include "endless_sums.h"
#include "../call/call_abo.h"
#include "../call/call_peer.h"
#include "../call/show.h"
#include "../generate/record.h"
#include "endless.h"

#include <string.h>

enum { RECORD = ABO_RECORD_BYTES, ROW = ABO_STATEMENT_ROW_BYTES };

/* So many movements of the greatest amount add up to 2^64 and a number of twelve
   digits, which the head says as its turnover: a sum in one word is taken for
   that. */
#define PAST UINT64_C(18446745)
#define GREATEST UINT64_C(999999999999)
_Static_assert(PAST < ENDLESS_RUN, "a run passes 2^64");

/* A head whose sums are nothing, a movement, and the one that takes it back. */
enum { HEAD, THERE, BACK, PIECES };

static void make_pieces(union abo_statement_row *rows, uint64_t there,
                        uint64_t back)
{
    memset(rows, 0, PIECES * sizeof *rows);
    rows[HEAD].word[0] = ABO_STATEMENT_HEAD;
    for (unsigned i = THERE; i < PIECES; i++) {
        rows[i].word[0] = ABO_STATEMENT_MOVEMENT;
        rows[i].movement.code = i == THERE ? there : back;
        rows[i].movement.amount = GREATEST;
    }
}

/* The answer to one call without room, which the second program gives, too. */
static struct outcome answer(const char *what, enum which which,
                             const uint8_t *bytes, size_t len)
{
    struct call c = {.which = which, .file = {bytes, len}};
    in_hand(what, 0, NULL, 0);
    struct outcome a = call_abo(&c, NULL, 0), p = call_peer(&c, NULL, 0);
    if (count_check(same_outcome(&a, &p))) {
        show_outcome("abo: ", &a);
        show_outcome("peer:", &p);
    }
    return a;
}

static void compare_past(enum which which, const uint8_t *pieces, size_t size)
{
    static const char what[] = "a sum that passes 2^64";
    struct endless e;
    make_endless(&e, pieces, size, 1);
    struct outcome a = answer(what, which, e.bytes, (PAST + 1) * size);
    check(a.number == ABO_BAD_TURNOVER,
          "a sum that passes 2^64 is taken for what is left of it");
    free_endless(&e);
}

/* As many movements back as there: all are counted, and only room is wanting. */
static void compare_back(enum which which, const uint8_t *pieces, size_t size,
                         size_t wanted)
{
    static const char what[] = "a sum that passes 2^64 and comes back";
    struct endless e;
    make_endless(&e, pieces, size, 2);
    e.len -= size;
    struct outcome a = answer(what, which, e.bytes, e.len);
    check(a.number == ABO_NO_ROOM && a.needed == e.len / size * wanted,
          "a sum that passes 2^64 and comes back is not nothing");
    free_endless(&e);
}

/* The debits of a file: above 2^64, and back to nothing. */
static void compare_files(void)
{
    union abo_statement_row rows[PIECES];
    struct text file = {0};
    make_pieces(rows, ABO_CODE_DEBIT, ABO_CODE_DEBIT_REVERSED);
    for (unsigned i = HEAD; i < PIECES; i++)
        put_record(&file, &rows[i], false);
    compare_back(READS_STATEMENT, file.data, RECORD, ROW);
    rows[HEAD].head.debit = (int64_t)(PAST * GREATEST);
    rows[HEAD].head.new_balance = -rows[HEAD].head.debit;
    text_clear(&file);
    put_record(&file, &rows[HEAD], false);
    put_record(&file, &rows[THERE], false);
    compare_past(READS_STATEMENT, file.data, RECORD);
    text_free(&file);
}

/* The credits of rows: below -2^64, and back to nothing. */
static void compare_rows(void)
{
    union abo_statement_row rows[PIECES];
    make_pieces(rows, ABO_CODE_CREDIT_REVERSED, ABO_CODE_CREDIT);
    compare_back(WRITES_STATEMENT, (const uint8_t *)rows, ROW, RECORD);
    rows[HEAD].head.credit = -(int64_t)(PAST * GREATEST);
    rows[HEAD].head.new_balance = rows[HEAD].head.credit;
    compare_past(WRITES_STATEMENT, (const uint8_t *)rows, ROW);
}

void compare_endless(void)
{
    compare_files();
    compare_rows();
}
