#include "calls.h"
#include "../host/call/call_abo.h"
#include "../host/call/call_peer.h"
#include "../host/generate/memory.h"
#include "../host/generate/plain.h"
#include "../host/generate/statements.h"

#include <string.h>

/* The batch of the file, as the second program reads it, whoever writes it. */
static void lend_batch(struct lent *l, size_t rows_len)
{
    struct call *c = &l->call;
    l->rows = resized(NULL, rows_len);
    c->which = READS;
    l->read = call_peer(c, l->rows, rows_len);
    c->which = WRITES;
    c->texts = c->file;
    c->file = (struct slice){l->rows, rows_len};
    c->name = (struct slice){l->read.name, sizeof l->read.name};
    give_header(c, &l->read);
}

/* At least a head and a movement; false if there is no such kind. */
static bool make_sized_statement(struct sized_file *file, const char *kind,
                                 size_t bytes)
{
    size_t records = bytes / ABO_RECORD_BYTES, movements = 1;
    if (records < 2)
        records = 2;
    if (strcmp(kind, "one") == 0)
        movements = records - 1;
    else if (strcmp(kind, "thousand") == 0)
        movements = records > 1000 ? 1000 : records - 1;
    else if (strcmp(kind, "single") != 0)
        return false;
    put_many_statements(&file->bytes, records / (movements + 1), movements);
    file->items = file->rows = file->bytes.len / ABO_RECORD_BYTES;
    return true;
}

static bool lend_statement(struct lent *l, enum which which, const char *kind,
                           size_t bytes)
{
    if (!make_sized_statement(&l->file, kind, bytes))
        return false;
    const struct text *file = &l->file.bytes;
    size_t rows_len = l->file.rows * ABO_STATEMENT_ROW_BYTES;
    l->call = (struct call){.which = READS_STATEMENT,
                            .file = {file->data, file->len}};
    l->out_len = which == READS_STATEMENT ? rows_len : file->len;
    l->out = resized(NULL, l->out_len);
    if (which == WRITES_STATEMENT) { /* the rows that the second program reads */
        l->rows = resized(NULL, rows_len);
        l->read = call_peer(&l->call, l->rows, rows_len);
        l->call = (struct call){.which = which, .file = {l->rows, rows_len}};
    }
    return true;
}

/* Explaining and listing take refused files too, and say how much there is. */
static bool tells(enum which which)
{
    return which == EXPLAINS || which == LISTS;
}

bool lend_for(struct lent *l, enum which which, unsigned sheet,
              const char *kind, size_t bytes)
{
    memset(l, 0, sizeof *l);
    if (of_statement(which))
        return lend_statement(l, which, kind, bytes);
    if (!make_sized_file(&l->file, sheet, kind, bytes))
        return false;
    const struct text *file = &l->file.bytes;
    size_t rows_len = l->file.rows * ABO_ROW_BYTES;
    l->call = (struct call){.which = which, .sheet = sheet,
                            .today = PLAIN_TODAY,
                            .file = {file->data, file->len}};
    if (which == WRITES)
        lend_batch(l, rows_len);
    if (which == READS_REGISTERED)
        l->call.reg = (struct held){(uint8_t *)&l->reg, sizeof l->reg};
    /* no line is spelled longer than it was read */
    l->out_len = which == READS || which == READS_REGISTERED ? rows_len
                                                             : file->len;
    if (tells(which))
        l->out_len = (size_t)call_peer(&l->call, NULL, 0).needed;
    l->out = resized(NULL, l->out_len > 0 ? l->out_len : 1);
    return true;
}

void give_back(struct lent *l)
{
    free(l->rows);
    free(l->out);
    text_free(&l->file.bytes);
}

static bool is_right(const struct lent *l, const struct outcome *o)
{
    if (o->number != ABO_ACCEPTED)
        return false;
    return l->call.which == WRITES || o->written == l->out_len;
}

size_t call_once(struct lent *l, enum who who)
{
    l->reg = (struct abo_register){.date = PLAIN_TODAY};
    if (who == NONE)
        return l->file.bytes.len;
    struct outcome o = who == ABO ? call_abo(&l->call, l->out, l->out_len)
                                  : call_peer(&l->call, l->out, l->out_len);
    if (!is_right(l, &o))
        return 0;
    l->left = (size_t)o.written;
    return l->call.which == WRITES ? l->left : l->file.bytes.len;
}
