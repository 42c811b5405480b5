#include "statement.h"

#include <inttypes.h>
#include <stdlib.h>
#include <string.h>

#include <abo_say.h>
#include "balance.h"
#include "letters.h"
#include "names.h"
#include "place.h"

enum { TEXT = ABO_RECORD_BYTES - 2, TYPE = 3 };

/* With no room lent, the library says 16 and how many rows a file that it accepts has. */
bool take_statement(struct statement *s, const char *program, const char *name)
{
    memset(s, 0, sizeof *s);
    if (!read_whole(&s->file, program, name))
        return false;
    say_progress(&s->file, program, "judging");
    s->answer = abo_statement_read_rows(s->file.bytes, s->file.len, NULL, 0);
    if (s->answer.number == ABO_NO_ROOM) {
        bool fits = s->answer.needed <= SIZE_MAX / sizeof *s->rows;
        size_t count = (size_t)s->answer.needed;
        s->rows = fits ? malloc(count * sizeof *s->rows) : NULL;
        if (s->rows != NULL)
            s->answer = abo_statement_read_rows(s->file.bytes, s->file.len, s->rows, count);
    }
    end_progress();
    if (s->answer.number != ABO_NO_ROOM)
        return true;
    tell_fault(program, name, "Standard input", "cannot be shown", "there is not enough memory for its rows");
    return false;
}

void free_statement(struct statement *s)
{
    free(s->rows);
    free(s->file.bytes);
}

int64_t effect_of(const struct abo_statement_movement *m)
{
    bool adds = m->code == ABO_CODE_CREDIT || m->code == ABO_CODE_DEBIT_REVERSED;
    return adds ? (int64_t)m->amount : -(int64_t)m->amount;
}

/* ---- a refusal ---- */

/* The record of the refusal: what of its 128 bytes is there. */
struct record {
    const uint8_t *bytes;
    size_t at, left; /* its place in the file, and how many bytes are left from there */
};

static struct record record_of(const struct statement *s, uint64_t number)
{
    size_t at = (size_t)(number - 1) * ABO_RECORD_BYTES;
    struct record r = {s->file.bytes + at, at, s->file.len - at};
    return r;
}

static bool is_type(const struct record *r, const char *type)
{
    return r->left >= TYPE && memcmp(r->bytes, type, TYPE) == 0;
}

static uint64_t digits_at(const uint8_t *bytes, size_t count)
{
    uint64_t value = 0;
    for (size_t i = 0; i < count; i++)
        value = value * 10 + (uint64_t)(bytes[i] - '0');
    return value;
}

/* A field of fourteen digits and its sign, which are known to be right. */
static int64_t signed_at(const uint8_t *bytes)
{
    int64_t value = (int64_t)digits_at(bytes, 14);
    return bytes[14] == '-' ? -value : value;
}

/* What the movements behind a head add up to, of this code less those of its reversal.  They were judged before the sums. */
static struct balance sum_behind(const struct statement *s, uint64_t head, char code, char reversed)
{
    enum { AMOUNT = 48, CODE = 60 };
    struct balance sum = {0, 0};
    for (uint64_t number = head + 1; number * ABO_RECORD_BYTES <= s->file.len; number++) {
        struct record r = record_of(s, number);
        int64_t amount;
        if (!is_type(&r, "075"))
            break;
        amount = (int64_t)digits_at(r.bytes + AMOUNT, 12);
        if (r.bytes[CODE] == (uint8_t)code)
            add_signed(&sum, amount);
        else if (r.bytes[CODE] == (uint8_t)reversed)
            add_signed(&sum, -amount);
    }
    return sum;
}

/* All of these are 50; the type comes first, as it tells most. */
static void say_record(FILE *to, const struct statement *s, const struct record *r)
{
    bool known = is_type(r, "074") || is_type(r, "075");
    if (s->file.len == 0)
        fputs("the file is empty, and a record 074 is due", to);
    else if (r->left >= TYPE && !known) {
        fputs("the record's type is \"", to);
        show_1250(to, r->bytes, TYPE);
        fputs("\", and 074 or 075 is allowed", to);
    } else if (r->left < ABO_RECORD_BYTES)
        fprintf(to, "the file ends inside this record: %zu of its %d bytes are there", r->left, (int)ABO_RECORD_BYTES);
    else if (memcmp(r->bytes + TEXT, "\r\n", 2) != 0)
        fprintf(to, "no CR LF stands behind the %d bytes of this record", (int)TEXT);
    else
        fputs("a movement (075) stands before any head of a statement (074)", to);
}

static void say_value(FILE *to, const struct record *r, const struct abo_record_words *words)
{
    fprintf(to, "%s is \"", words->noun);
    show_1250(to, r->bytes + words->place, (size_t)words->width);
    fprintf(to, "\", and %s %s allowed", words->allowed, words->width > 1 ? "are" : "is");
}

static void say_sums(FILE *to, const struct statement *s, const struct record *r, const struct abo_record_words *words)
{
    enum { OLD = 45, NEW = 60, DEBIT = 75, CREDIT = 90 };
    char said[BALANCE_ROOM], due[BALANCE_ROOM];
    bool debit = words->place == DEBIT;
    struct balance right = balance_of(signed_at(r->bytes + OLD));
    spell_balance(said, balance_of(signed_at(r->bytes + words->place)));
    add_signed(&right, -signed_at(r->bytes + DEBIT));
    add_signed(&right, signed_at(r->bytes + CREDIT));
    if (words->place != NEW)
        right = sum_behind(s, s->answer.line, debit ? '1' : '2', debit ? '4' : '5');
    spell_balance(due, right);
    fprintf(to, "%s is %s, and %s %s", words->noun, said,
            words->place == NEW ? "the old one less debit plus credit is" : "the movements add up to", due);
}

void print_statement_refusal(FILE *to, const char *name, const struct statement *s)
{
    const struct abo_statement_answer *a = &s->answer;
    struct record r = record_of(s, a->line);
    size_t at = (size_t)a->byte - r.at;
    uint64_t kind = is_type(&r, "074") ? ABO_STATEMENT_HEAD : ABO_STATEMENT_MOVEMENT;
    const struct abo_record_words *words = at > 0 ? abo_say_record(kind, at) : NULL;
    if (name != NULL) {
        put_name(to, name);
        fprintf(to, ":%" PRIu64 ":%zu: ", a->line, at + 1);
    }
    fprintf(to, "refused at record %" PRIu64 ", column %zu, byte %" PRIu64 ": ", a->line, at + 1, a->byte);
    if (words == NULL)
        say_record(to, s, &r);
    else if (a->number == ABO_BAD_VALUE)
        say_value(to, &r, words);
    else
        say_sums(to, s, &r, words);
    fprintf(to, " (%" PRIu64 ").\n", a->number);
    if (r.left == 0)
        fputs("  (the file ends here)\n  ^\n", to);
    else
        show_place(to, r.bytes, r.left < TEXT ? r.left : TEXT, at, words != NULL ? (size_t)words->width : 1);
}
