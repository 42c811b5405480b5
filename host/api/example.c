/*
 * Three wages as one batch: made in rows, written as a file of sheet K, read
 * back, and held against what was sent.  The file goes to standard output.
 */
#include <abo.h>
#include <abo_say.h>

#include <inttypes.h>
#include <stdio.h>
#include <stdlib.h>
#include <string.h>

enum { TODAY = 20180101, DUE = 20180102, WAGES = 3, ROWS = 2 + WAGES };

struct wage {
    struct abo_account payee;
    uint64_t bank, haler;
};

static const struct wage wages[WAGES] = {
    {{0, 5152046}, 800, 3150000},
    {{174, 1999738514}, 100, 2875050},
    {{500005, 2267100237}, 8100, 4020000},
};

/* Bytes that texts lie in, in the bank's character set; their zero byte is not
   lent. */
static const char texts[] = "Wage for December";

/* An account file, one group with the payer, and an item for each wage. */
static void make_rows(union abo_row *rows)
{
    memset(rows, 0, ROWS * sizeof *rows);
    rows[0].file.row = ABO_ROW_FILE;
    rows[0].file.kind = 1501;
    rows[0].file.number = 1001; /* 001001: number 001 of the interval */
    rows[1].group.row = ABO_ROW_GROUP;
    rows[1].group.due = DUE;
    rows[1].group.payer.prefix = 19;
    rows[1].group.payer.base = 19;
    for (size_t i = 0; i < WAGES; i++) {
        struct abo_item_row *item = &rows[2 + i].item;
        item->row = ABO_ROW_ITEM;
        item->payee = wages[i].payee;
        item->bank = wages[i].bank;
        item->amount = wages[i].haler;
        item->variable = 201712;
        item->constant = 138;
        item->priority = ABO_PRIORITY_USUAL;
        item->part[0].place = 0;
        item->part[0].length = sizeof texts - 1;
    }
}

static struct abo_written write_rows(const union abo_row *rows, uint8_t *out,
                                     size_t out_len)
{
    struct abo_header header = {
        .date = TODAY, .client = 1234567890, .from = 1, .to = 999};
    abo_set_name(&header, "Jablko a syn s.r.o.");
    return abo_write_rows(rows, ROWS, (const uint8_t *)texts, sizeof texts - 1,
                          &header, ABO_SHEET_K, TODAY, out, out_len);
}

/* Says in words what was refused: where, why, and what may stand there. */
static void say_batch(const union abo_row *rows, const struct abo_written *w)
{
    uint64_t kind = 0; /* the header; and a row that is missing has no fields */
    if (w->row > 0 && w->row <= ROWS)
        kind = rows[w->row - 1].word[ABO_FIELD_ROW];
    const char *field = abo_say_field(kind, w->field);
    const char *allowed = w->number == ABO_NOT_CARRIED
                              ? abo_say_carried(ABO_SHEET_K, kind, w->field)
                              : abo_say_allowed(kind, w->field);
    fprintf(stderr, "The batch was refused at row %" PRIu64 ": %s.\n", w->row,
            abo_say_number(w->number));
    if (field != NULL && allowed != NULL)
        fprintf(stderr, "Look at %s; allowed is: %s.\n", field, allowed);
}

/* The file and its length, or NULL.  No room is lent at first, so that a batch
   which can be written is answered with the bytes that it needs. */
static uint8_t *write_batch(const union abo_row *rows, size_t *len)
{
    struct abo_written w = write_rows(rows, NULL, 0);
    uint8_t *file = NULL;
    if (w.number == ABO_NO_ROOM && (file = malloc(w.bytes)) != NULL)
        w = write_rows(rows, file, w.bytes);
    if (w.number != ABO_ACCEPTED)
        say_batch(rows, &w);
    *len = w.bytes;
    return file;
}

/* The rows and their count, or NULL; asked for in the same way. */
static union abo_row *read_batch(const uint8_t *file, size_t len, size_t *count)
{
    struct abo_answer a = abo_read_rows(file, len, ABO_SHEET_K, TODAY, NULL, 0);
    union abo_row *rows = NULL;
    if (a.number == ABO_NO_ROOM &&
        (rows = calloc(a.needed, sizeof *rows)) != NULL)
        a = abo_read_rows(file, len, ABO_SHEET_K, TODAY, rows, a.needed);
    if (a.number != ABO_ACCEPTED) {
        struct abo_found line = abo_line(file, len, a.line);
        fprintf(stderr,
                "The file was refused at line %" PRIu64 ", byte %" PRIu64
                ": %s.\n%.*s\n",
                a.line, a.byte, abo_say_number(a.number), (int)line.len,
                (const char *)file + line.at);
    }
    *count = a.rows;
    return rows;
}

/* Is the item what was sent?  Its text lies in the file that was read. */
static int same_wage(const struct wage *sent, const struct abo_item_row *item,
                     const uint8_t *file)
{
    return item->row == ABO_ROW_ITEM &&
           item->payee.prefix == sent->payee.prefix &&
           item->payee.base == sent->payee.base && item->bank == sent->bank &&
           item->amount == sent->haler &&
           item->part[0].length == sizeof texts - 1 &&
           memcmp(file + item->part[0].place, texts, sizeof texts - 1) == 0;
}

int main(void)
{
    union abo_row sent[ROWS], *back = NULL;
    size_t len = 0, count = 0, same = 0;
    make_rows(sent);
    uint8_t *file = write_batch(sent, &len);
    if (file != NULL)
        back = read_batch(file, len, &count);
    for (size_t i = 0; back != NULL && count == ROWS && i < WAGES; i++)
        same += same_wage(&wages[i], &back[2 + i].item, file) != 0;
    if (file != NULL)
        fwrite(file, 1, len, stdout);
    printf("%zu of %d wages came back as they were sent.\n", same, WAGES);
    free(back);
    free(file);
    return same == WAGES ? EXIT_SUCCESS : EXIT_FAILURE;
}
