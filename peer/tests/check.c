#include "check.h"

unsigned long test_passed, test_failed;
struct peer_answer test_answer;
uint8_t *test_out;

enum { FILLED = 0xa5 };

void test_count(bool ok, const char *file, int line, const char *what)
{
    if (ok) {
        test_passed++;
        return;
    }
    test_failed++;
    printf("%s:%d: failed: %s\n", file, line, what);
}

/* ---- chance ---- */

uint64_t draw(void)
{
    static uint64_t state = UINT64_C(0x9e3779b97f4a7c15);
    state ^= state << 13;
    state ^= state >> 7;
    state ^= state << 17;
    return state * UINT64_C(2685821657736338717) >> 11;
}

uint64_t below(uint64_t limit)
{
    return draw() % limit;
}

bool one_in(uint64_t n)
{
    return below(n) == 0;
}

/* ---- files ---- */

const char *frame_text(struct frame f)
{
    static char rooms[8][8192];
    static unsigned turn;
    static const char *const banks[] = {"8100", "0800", "0300", "6100",
                                        "0300"};
    char *room = rooms[turn++ % 8], file[32];
    snprintf(file, sizeof file, "1 1501 000000 %s", banks[f.sheet - 1]);
    snprintf(room, sizeof rooms[0], "%s\n%s\n%s\n%s\n%s\n%s\n",
             f.first ? f.first : f.sheet == C ? "UHL1" : FIRST_58,
             f.file ? f.file : file, f.group ? f.group : "2 19-19 5001 020118",
             f.item         ? f.item
             : f.sheet == S ? "705 5001 42 03000558  "
                            : "705 5001 42 03000558",
             f.close ? f.close : "3 +", f.end ? f.end : "5 +");
    return room;
}

size_t offset_of(const char *file, size_t len, uint64_t line, size_t plus)
{
    size_t at = 0;
    for (; line > 1 && at < len; line--) {
        while (at < len && file[at] != '\r' && file[at] != '\n')
            at++;
        if (at + 1 < len && file[at] == '\r' && file[at + 1] == '\n')
            at++;
        if (at < len)
            at++;
    }
    return at + plus;
}

/* ---- lent bytes ---- */

uint8_t *lend(size_t len)
{
    uint8_t *room = malloc(len + 2 * GUARD);
    if (room == NULL)
        exit(2);
    memset(room, FILLED, len + 2 * GUARD);
    return room;
}

bool untouched(const uint8_t *bytes, size_t len)
{
    for (size_t i = 0; i < len; i++)
        if (bytes[i] != FILLED)
            return false;
    return true;
}

uint8_t *copy_of(const void *bytes, size_t len)
{
    uint8_t *copy = malloc(len > 0 ? len : 1);
    if (copy == NULL)
        exit(2);
    if (len > 0)
        memcpy(copy, bytes, len);
    return copy;
}

static bool header_is_empty(const struct peer_header *h)
{
    return h->date == 0 && h->client == 0 && h->from == 0 && h->to == 0 &&
           memcmp(h->name, "                    ", 20) == 0;
}

/* ---- reading ---- */

static void explained(const char *what, unsigned sheet, uint64_t today,
                      const uint8_t *file, size_t len, const char *want)
{
    uint8_t *room = lend(100);
    size_t size = strlen(want);
    struct peer_text t =
        peer_explain(file, len, sheet, today, room + GUARD, size - 1);
    CHECK(what, t.number == 16 && t.bytes == size);
    CHECK(what, untouched(room, 100 + 2 * GUARD));
    t = peer_explain(file, len, sheet, today, room + GUARD, size);
    CHECK(what, t.number == 0 && t.bytes == size);
    CHECK(what, memcmp(room + GUARD, want, size) == 0);
    CHECK(what, untouched(room, GUARD) &&
                    untouched(room + GUARD + size, 100 - size + GUARD));
    free(room);
}

void refused_bytes(const char *what, unsigned sheet, uint64_t today,
                   const void *file, size_t len, uint64_t number, uint64_t line,
                   uint64_t byte)
{
    size_t room = 64 * ROW;
    uint8_t *rows = lend(room), *copy = copy_of(file, len);
    char want[100];
    struct peer_answer a =
        peer_read(copy, len, sheet, today, rows + GUARD, room);
    bool right = a.number == number && a.line == line && a.byte == byte;
    CHECK(what, right);
    if (!right)
        printf("  sheet %u: got %d line %d byte %d, want %d line %d byte %d\n",
               sheet, (int)a.number, (int)a.line, (int)a.byte, (int)number,
               (int)line, (int)byte);
    CHECK(what, a.rows == 0 && a.warnings == 0 && a.needed == 0);
    CHECK(what, header_is_empty(&a.header));
    CHECK(what, untouched(rows, room + 2 * GUARD));
    snprintf(want, sizeof want, "refused %d line %d byte %d\n", (int)number,
             (int)line, (int)byte);
    explained(what, sheet, today, copy, len, want);
    free(rows);
    free(copy);
}

void refused_on(const char *what, unsigned sheet, uint64_t today,
                const char *file, uint64_t number, uint64_t line, size_t plus)
{
    size_t len = strlen(file);
    refused_bytes(what, sheet, today, file, len, number, line,
                  offset_of(file, len, line, plus));
}

void refused(const char *what, unsigned sheet, const char *file,
             uint64_t number, uint64_t line, size_t plus)
{
    refused_on(what, sheet, TODAY, file, number, line, plus);
}

/* With one row too few the answer is 16 and nothing is touched. */
static void wants_room(const char *what, unsigned sheet, uint64_t today,
                       const uint8_t *file, size_t len, size_t rows)
{
    size_t room = rows * ROW - 1;
    uint8_t *lent = lend(room);
    struct peer_answer a =
        peer_read(file, len, sheet, today, lent + GUARD, room);
    CHECK(what, a.number == 16 && a.line == 0 && a.byte == 0 && a.rows == 0 &&
                    a.warnings == 0 && a.needed == rows);
    CHECK(what, header_is_empty(&a.header));
    CHECK(what, untouched(lent, room + 2 * GUARD));
    free(lent);
}

static uint64_t word_at(const uint8_t *bytes)
{
    uint64_t word = 0;
    for (int i = 7; i >= 0; i--)
        word = word << 8 | bytes[i];
    return word;
}

/* Unused words and references are zero, and an empty text is place 0. */
static bool row_is_tidy(const uint64_t *row)
{
    size_t used = row[0] == 1 ? 3 : row[0] == 2 ? 4 : 21;
    for (size_t i = used; i < WORDS; i++)
        if (row[i] != 0)
            return false;
    for (size_t i = 11; row[0] == 3 && i <= 19; i += 2)
        if (row[i + 1] == 0 && row[i] != 0)
            return false;
    return row[0] >= 1 && row[0] <= 3;
}

uint64_t (*accepted_bytes(const char *what, unsigned sheet, uint64_t today,
                          const void *file, size_t len, uint64_t rows,
                          uint64_t warnings))[WORDS]
{
    static uint64_t (*words)[WORDS];
    size_t count = (size_t)rows, room = (count + 1) * ROW + 5;
    uint8_t *lent = lend(room), *copy = copy_of(file, len);
    char want[100];
    bool tidy = true;
    /* One byte off, to have no alignment. */
    struct peer_answer a =
        peer_read(copy, len, sheet, today, lent + GUARD + 1, room - 1);
    bool right = a.number == 0 && a.rows == rows && a.warnings == warnings;
    CHECK(what, right);
    if (!right)
        printf("  sheet %u: got %d line %d byte %d rows %d warnings %d\n",
               sheet, (int)a.number, (int)a.line, (int)a.byte, (int)a.rows,
               (int)a.warnings);
    CHECK(what, a.line == 0 && a.byte == 0 && a.needed == 0);
    CHECK(what, untouched(lent, GUARD + 1) &&
                    untouched(lent + GUARD + 1 + count * ROW,
                              room - 1 - count * ROW + GUARD));
    free(words);
    words = malloc((count + 1) * sizeof *words);
    if (words == NULL)
        exit(2);
    for (size_t i = 0; i < count * WORDS; i++)
        words[i / WORDS][i % WORDS] = word_at(lent + GUARD + 1 + i * 8);
    for (size_t i = 0; a.number == 0 && i < count; i++)
        tidy = tidy && row_is_tidy(words[i]);
    CHECK(what, tidy);
    snprintf(want, sizeof want, "accepted rows %d warnings %d\n", (int)rows,
             (int)warnings);
    explained(what, sheet, today, copy, len, want);
    wants_room(what, sheet, today, copy, len, count);
    free(lent);
    free(copy);
    test_answer = a;
    return words;
}

uint64_t (*accepted_on(const char *what, unsigned sheet, uint64_t today,
                       const char *file, uint64_t rows,
                       uint64_t warnings))[WORDS]
{
    return accepted_bytes(what, sheet, today, file, strlen(file), rows,
                          warnings);
}

uint64_t (*accepted(const char *what, unsigned sheet, const char *file,
                    uint64_t rows, uint64_t warnings))[WORDS]
{
    return accepted_on(what, sheet, TODAY, file, rows, warnings);
}

bool says(const char *file, const uint64_t *row, size_t word, const char *text)
{
    size_t len = strlen(text), all = strlen(file);
    return row[word + 1] == len && row[word] <= all && len <= all - row[word] &&
           memcmp(file + row[word], text, len) == 0;
}

/* ---- writing ---- */

uint64_t *batch_row(struct batch_in *b, uint64_t kind)
{
    uint64_t *row = b->words[b->rows++];
    memset(row, 0, WORDS * sizeof *row);
    row[0] = kind;
    return row;
}

void batch_file(struct batch_in *b, uint64_t kind, uint64_t number)
{
    uint64_t *row = batch_row(b, 1);
    row[1] = kind;
    row[2] = number;
}

void batch_group(struct batch_in *b, uint64_t date, uint64_t prefix,
                 uint64_t base)
{
    uint64_t *row = batch_row(b, 2);
    row[1] = date;
    row[2] = prefix;
    row[3] = base;
}

uint64_t *batch_item(struct batch_in *b)
{
    uint64_t *row = batch_row(b, 3);
    row[4] = 705;
    row[5] = 300;
    row[6] = 5001;
    row[7] = 42;
    row[9] = 558;
    row[10] = 5;
    return row;
}

void batch_text(struct batch_in *b, uint64_t *row, size_t word,
                const char *text)
{
    size_t len = strlen(text);
    memcpy(b->texts + b->texts_len, text, len);
    row[word] = b->texts_len;
    row[word + 1] = len;
    b->texts_len += len;
}

void batch_start(struct batch_in *b)
{
    b->rows = b->left_over = b->texts_len = 0;
    b->date = 20180101;
    b->client = 1234567890;
    b->from = 0;
    b->to = 999;
    memcpy(b->name, "KLIENT TEST         ", 20);
    b->name_len = 20;
    batch_file(b, 1501, 0);
    batch_group(b, 20180102, 19, 19);
    batch_item(b);
}

/* Rows as bytes of exactly their size and no alignment. */
static uint8_t *rows_of(const struct batch_in *b, size_t *len)
{
    *len = b->rows * ROW + b->left_over;
    uint8_t *bytes = malloc(*len + 1);
    if (bytes == NULL)
        exit(2);
    memset(bytes, 1, *len + 1);
    for (size_t i = 0; i < b->rows * ROW; i++) {
        uint64_t word = b->words[i / ROW][i % ROW / 8];
        bytes[1 + i] = (uint8_t)(word >> 8 * (i % 8));
    }
    return bytes;
}

struct peer_written batch_write(const struct batch_in *b, uint64_t sheet,
                                uint64_t today, size_t room)
{
    size_t len;
    uint8_t *rows = rows_of(b, &len);
    uint8_t *texts = copy_of(b->texts, b->texts_len);
    uint8_t *out = lend(room);
    struct peer_written w =
        peer_write(rows + 1, len, texts, b->texts_len, b->date,
                   b->name_len > 0 ? b->name : NULL, b->name_len, b->client,
                   b->from, b->to, sheet, today, out + GUARD, room);
    size_t used = w.number == 0 ? (size_t)w.bytes : 0;
    CHECK("guards of writing", untouched(out, GUARD) && used <= room &&
                                   untouched(out + GUARD + used,
                                             room - used + GUARD));
    free(rows);
    free(texts);
    free(test_out);
    test_out = copy_of(out + GUARD, used);
    free(out);
    return w;
}

void not_written(const char *what, const struct batch_in *b, uint64_t sheet,
                 uint64_t number, uint64_t row, uint64_t field)
{
    struct peer_written w = batch_write(b, sheet, TODAY, 4096);
    bool right = w.number == number && w.row == row && w.field == field;
    CHECK(what, right && w.bytes == 0);
    if (!right)
        printf("  sheet %d: got %d row %d field %d, want %d row %d field %d\n",
               (int)sheet, (int)w.number, (int)w.row, (int)w.field,
               (int)number, (int)row, (int)field);
    w = batch_write(b, sheet, TODAY, 0);
    CHECK(what, w.number == number && w.row == row && w.field == field);
}

void written(const char *what, const struct batch_in *b, uint64_t sheet,
             const char *text)
{
    size_t len = strlen(text);
    struct peer_written w = batch_write(b, sheet, TODAY, len - 1);
    CHECK(what, w.number == 16 && w.row == 0 && w.field == 0 && w.bytes == len);
    w = batch_write(b, sheet, TODAY, len);
    bool right = w.number == 0 && w.row == 0 && w.field == 0 && w.bytes == len;
    CHECK(what, right);
    CHECK(what, right && memcmp(test_out, text, len) == 0);
    if (!right)
        printf("  sheet %d: got %d row %d field %d bytes %d\n", (int)sheet,
               (int)w.number, (int)w.row, (int)w.field, (int)w.bytes);
    else if (memcmp(test_out, text, len) != 0)
        printf("  got:\n%.*s", (int)len, (const char *)test_out);
    w = batch_write(b, sheet, TODAY, len + 7);
    CHECK(what, w.number == 0 && w.bytes == len);
}
