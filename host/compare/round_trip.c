/* Here the library is held against itself: the canonical file says the same
   batch and header, and is its own canonical file. */
#include "round_trip.h"
#include "../call/call.h"
#include "../call/show.h"
#include "../generate/draw_draft.h"
#include "../generate/generate.h"
#include "../generate/limits.h"
#include "../generate/memory.h"
#include "../generate/words.h"

#include <stdio.h>
#include <string.h>

/* A file and what reading it gave; or texts, and rows that were drawn. */
struct reading {
    const uint8_t *file;
    size_t len;
    struct abo_answer answer;
    uint8_t *rows;
};

static struct reading read_all(const uint8_t *file, size_t len, uint64_t sheet,
                               uint64_t today)
{
    struct reading r = {.file = file, .len = len};
    r.answer = abo_read(file, len, sheet, today, NULL, 0);
    if (r.answer.number == 16) {
        size_t bytes = (size_t)r.answer.needed * ABO_ROW_BYTES;
        r.rows = resized(NULL, bytes);
        r.answer = abo_read(file, len, sheet, today, r.rows, bytes);
    }
    return r;
}

static struct abo_written write_back(const struct reading *r, uint64_t sheet,
                                     uint64_t today, uint8_t *out, size_t room)
{
    const struct abo_header *h = &r->answer.header;
    return abo_write(r->rows, (size_t)r->answer.rows * ABO_ROW_BYTES, r->file, r->len,
                     h->date, h->name, sizeof h->name, h->client, h->from,
                     h->to, sheet, today, out, room);
}

/* Texts are the same by their bytes. */
static bool same_text(const struct reading *a, const struct reading *b,
                      size_t row, size_t word)
{
    uint64_t len = word_of(a->rows, row, word + 1);
    uint64_t at_a = word_of(a->rows, row, word), at_b = word_of(b->rows, row, word);
    if (len != word_of(b->rows, row, word + 1) || len > ABO_TEXT_BYTES)
        return false;
    return len == 0 || (at_a <= a->len - len && at_b <= b->len - len &&
                        memcmp(a->file + at_a, b->file + at_b, len) == 0);
}

/* How many words of a row a file carries: an item's reference is none of them.
   So batches are compared without it, and it is 0 behind reading. */
static size_t words_of(const struct reading *r, size_t row)
{
    static const size_t words[] = {1, 3, 4, 21};
    uint64_t kind = word_of(r->rows, row, 0);
    return words[kind <= 3 ? kind : 0];
}

static bool same_row(const struct reading *a, const struct reading *b,
                     size_t row)
{
    size_t words = words_of(a, row), plain = words < 11 ? words : 11;
    for (size_t word = 0; word < plain; word++)
        if (word_of(a->rows, row, word) != word_of(b->rows, row, word))
            return false;
    for (size_t word = 11; word < words; word += 2)
        if (!same_text(a, b, row, word))
            return false;
    return true;
}

static bool same_batch(const struct reading *a, const struct reading *b)
{
    if (a->answer.rows != b->answer.rows)
        return false;
    for (size_t row = 0; row < (size_t)a->answer.rows; row++)
        if (!same_row(a, b, row))
            return false;
    return true;
}

/* What reading stores where there is nothing, as for a reference: zeros. */
static bool is_tidy(const struct reading *r)
{
    for (size_t row = 0; row < (size_t)r->answer.rows; row++) {
        for (size_t word = words_of(r, row); word < ABO_ROW_WORDS; word++)
            if (word_of(r->rows, row, word) != 0)
                return false;
        for (size_t word = 11; word < words_of(r, row); word += 2)
            if (word_of(r->rows, row, word + 1) == 0 && word_of(r->rows, row, word) != 0)
                return false;
    }
    return true;
}

/* A canonical file warns of nothing but past days on C and P, which are the
   batch's own.  A past day that is judged at each item is none that is read. */
static uint64_t due_warnings(const struct reading *r, uint64_t sheet,
                             uint64_t today)
{
    uint64_t warnings = 0;
    bool each = false;
    for (size_t row = 0;
         warns_of_past((unsigned)sheet) && row < (size_t)r->answer.rows; row++) {
        uint64_t kind = word_of(r->rows, row, ABO_FIELD_ROW);
        if (kind == ABO_ROW_FILE)
            each = judges_each((unsigned)sheet,
                               word_of(r->rows, row, ABO_FILE_KIND));
        warnings += kind == ABO_ROW_GROUP && !each &&
                    word_of(r->rows, row, ABO_GROUP_DUE) < today;
    }
    return warnings;
}

/* What was written, read and written once more: NULL, or what is wrong. */
static const char *second_fault(const struct reading *a, uint64_t sheet,
                                uint64_t today, const uint8_t *out, size_t len)
{
    const char *fault = NULL;
    struct reading b = read_all(out, len, sheet, today);
    uint8_t *again = resized(NULL, len);
    if (b.answer.number != 0)
        fault = "the canonical file is refused";
    else if (sheet != C && !same_header(&a->answer.header, &b.answer.header))
        fault = "the header is another";
    else if (!same_batch(a, &b) || !is_tidy(&b))
        fault = "the batch is another";
    else if (b.answer.warnings != due_warnings(&b, sheet, today))
        fault = "the canonical file has warnings of its own";
    else if (write_back(&b, sheet, today, again, len).number != 0 ||
             memcmp(again, out, len) != 0)
        fault = "the canonical file is written in another way";
    free(again);
    free(b.rows);
    return fault;
}

/* NULL, or what is wrong.  What cannot be written has no round trip. */
static const char *round_fault(const struct reading *a, uint64_t sheet,
                               uint64_t today, bool *written)
{
    struct abo_written w = write_back(a, sheet, today, NULL, 0);
    size_t len = (size_t)w.bytes;
    const char *fault = NULL;
    *written = w.number == 16;
    if (*written) {
        uint8_t *out = resized(NULL, len);
        if (write_back(a, sheet, today, out, len).number == 0)
            fault = second_fault(a, sheet, today, out, len);
        else
            fault = "there is no writing with the room asked for";
        free(out);
    }
    return fault;
}

static void show_fault(const char *what, const char *fault, uint64_t seed,
                       uint64_t sheet, uint64_t today, const struct text *text)
{
    printf("failed: %s: %s, seed %llu\n  sheet %llu today %llu\n", what, fault,
           (unsigned long long)seed, (unsigned long long)sheet,
           (unsigned long long)today);
    show_bytes("file or texts", text->data, text->len);
}

/* Read, written, read: true if the file was accepted. */
static bool file_trip(const struct made *m, uint64_t seed)
{
    struct reading a = read_all(m->file.data, m->file.len, m->sheet, m->today);
    bool written;
    if (a.answer.number != 0)
        return false;
    const char *fault = round_fault(&a, m->sheet, m->today, &written);
    if (!written)
        fault = "what was read cannot be written";
    else if (!is_tidy(&a))
        fault = "a word that says nothing is not 0";
    if (count_check(fault == NULL))
        show_fault("file", fault, seed, m->sheet, m->today, &m->file);
    free(a.rows);
    return true;
}

/* Written and read: true if the batch can be written. */
static bool batch_trip(const struct draft *d, uint64_t seed)
{
    struct reading a = {.file = d->texts.data, .len = d->texts.len,
                        .rows = d->rows.data};
    struct abo_header *h = &a.answer.header;
    bool written;
    /* Only C takes a name of another length, and does not look at it. */
    if (d->name_len < sizeof h->name)
        return false;
    memcpy(h->name, d->name, sizeof h->name);
    h->date = d->date;
    h->client = d->client;
    h->from = d->from;
    h->to = d->to;
    a.answer.rows = d->rows.len / ABO_ROW_BYTES;
    const char *fault = round_fault(&a, d->sheet, d->today, &written);
    if (written && count_check(fault == NULL))
        show_fault("batch", fault, seed, d->sheet, d->today, &d->texts);
    return written;
}

void round_trips(uint64_t count, uint64_t seed)
{
    struct made made = {0};
    struct draft draft = {0};
    unsigned long files = 0, batches = 0;
    for (uint64_t i = 0; i < count; i++) {
        generate(&made, seed + i);
        in_hand("round trip", seed + i, made.file.data, made.file.len);
        files += file_trip(&made, seed + i);
        draw_draft(&draft, seed + i);
        in_hand("round trip", seed + i, draft.rows.data, draft.rows.len);
        batches += batch_trip(&draft, seed + i);
    }
    printf("round trips: %lu files, %lu batches\n", files, batches);
    check((files > 0 && batches > 0) || count < 100, "no round trip was made");
    text_free(&made.file);
    free_draft(&draft);
}
