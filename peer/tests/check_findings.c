#include "check_findings.h"

struct peer_list test_list;
struct found *test_found;
char *test_text;

/* A file in a copy of its own size, with what five readings make of it. */
struct held {
    const char *what;
    unsigned sheet;
    uint64_t today;
    const uint8_t *file;
    size_t len;
    struct peer_answer by[5];
    const struct peer_answer *asked;
};

/* Reads with as many rows as are needed. */
static struct peer_answer read_whole(const uint8_t *file, size_t len,
                                     unsigned sheet, uint64_t today)
{
    struct peer_answer a = peer_read(file, len, sheet, today, NULL, 0);
    if (a.number != 16)
        return a;
    size_t room = (size_t)a.needed * ROW;
    uint8_t *rows = malloc(room);
    if (rows == NULL)
        exit(2);
    a = peer_read(file, len, sheet, today, rows, room);
    free(rows);
    return a;
}

static uint64_t word_at(const uint8_t *bytes)
{
    uint64_t word = 0;
    for (int i = 7; i >= 0; i--)
        word = word << 8 | bytes[i];
    return word;
}

static struct found found_at(const uint8_t *bytes)
{
    return (struct found){word_at(bytes),      word_at(bytes + 8),
                          word_at(bytes + 16), word_at(bytes + 24),
                          word_at(bytes + 32), word_at(bytes + 40),
                          word_at(bytes + 48), word_at(bytes + 56)};
}

/* ---- the list ---- */

/* Every room that is too small, by a byte or by all of it. */
static void list_wants_room(const struct held *h, size_t count)
{
    size_t rooms[] = {0, FINDING - 1, count * FINDING - 1};
    for (size_t i = 0; i < 3 && count > 0; i++) {
        if (rooms[i] >= count * FINDING)
            continue;
        uint8_t *lent = lend(rooms[i]);
        struct peer_list list = peer_findings(h->file, h->len, h->sheet,
                                              h->today, lent + GUARD, rooms[i]);
        CHECK(h->what, list.number == 16 && list.refused == 0 &&
                           list.count == 0 && list.needed == count &&
                           list.sheets == 0);
        CHECK(h->what, untouched(lent, rooms[i] + 2 * GUARD));
        free(lent);
    }
}

/* Room for one finding more and some bytes, and no alignment. */
static void take_list(const struct held *h, size_t count)
{
    size_t room = (count + 1) * FINDING + 7, used = count * FINDING;
    uint8_t *lent = lend(room + 1);
    test_list = peer_findings(h->file, h->len, h->sheet, h->today,
                              lent + GUARD + 1, room);
    CHECK(h->what, test_list.number == 0 && test_list.needed == 0);
    CHECK(h->what, test_list.refused == (h->asked->number != 0) &&
                       test_list.count == count);
    CHECK(h->what, untouched(lent, GUARD + 1) &&
                       untouched(lent + GUARD + 1 + used, room - used + GUARD));
    free(test_found);
    test_found = malloc((count + 1) * sizeof *test_found);
    if (test_found == NULL)
        exit(2);
    for (size_t i = 0; i < count; i++)
        test_found[i] = found_at(lent + GUARD + 1 + i * FINDING);
    free(lent);
}

/* The bytes found lie in the file and hold no line end; places go on. */
static bool is_placed(const struct held *h, const struct found *f,
                      const struct found *before)
{
    if (f->byte > h->len || f->length > h->len - f->byte)
        return false;
    for (uint64_t i = 0; i < f->length; i++)
        if (h->file[f->byte + i] == '\r' || h->file[f->byte + i] == '\n')
            return false;
    return before == NULL ||
           (f->byte > before->byte && f->line >= before->line);
}

static void check_list(const struct held *h, size_t count)
{
    bool placed = true;
    uint64_t sheets = 0;
    for (size_t i = 0; i < count; i++)
        placed = placed && is_placed(h, &test_found[i],
                                     i > 0 ? &test_found[i - 1] : NULL);
    CHECK(h->what, placed);
    for (size_t i = 0; i < count; i++)
        if (test_found[i].number != h->asked->number)
            placed = false;
    CHECK(h->what, placed);
    if (h->asked->number != 0)
        CHECK(h->what, test_found[0].line == h->asked->line &&
                           test_found[0].byte == h->asked->byte);
    for (size_t i = 0; i < 5; i++)
        sheets |= (uint64_t)(h->by[i].number == 0) << i;
    CHECK(h->what, test_list.sheets == sheets);
}

/* ---- the text ---- */

static void take_text(const struct held *h)
{
    struct peer_text t =
        peer_findings_text(h->file, h->len, h->sheet, h->today, NULL, 0);
    size_t size = (size_t)t.bytes;
    CHECK(h->what, t.number == 16 && size > 0);
    uint8_t *lent = lend(size + 1);
    t = peer_findings_text(h->file, h->len, h->sheet, h->today, lent + GUARD,
                           size - 1);
    CHECK(h->what, t.number == 16 && t.bytes == size);
    CHECK(h->what, untouched(lent, size + 1 + 2 * GUARD));
    t = peer_findings_text(h->file, h->len, h->sheet, h->today, lent + GUARD,
                           size);
    CHECK(h->what, t.number == 0 && t.bytes == size);
    CHECK(h->what, untouched(lent, GUARD) &&
                       untouched(lent + GUARD + size, 1 + GUARD));
    free(test_text);
    test_text = (char *)copy_of(lent + GUARD, size + 1);
    test_text[size] = 0;
    free(lent);
}

/* Passes these words, or gives NULL. */
static const char *pass(const char *at, const char *words)
{
    size_t len = strlen(words);
    return at != NULL && strncmp(at, words, len) == 0 ? at + len : NULL;
}

static const char *pass_line(const char *at)
{
    const char *end = at == NULL ? NULL : strchr(at, '\n');
    return end == NULL ? NULL : end + 1;
}

static const char *pass_heading(const struct held *h, const char *at)
{
    char line[100];
    if (h->asked->number != 0)
        snprintf(line, sizeof line, "Refused on sheet %c.\n",
                 "?KSCEP"[h->sheet]);
    else
        snprintf(line, sizeof line,
                 "Accepted on sheet %c, rows %d, warnings %d.\n",
                 "?KSCEP"[h->sheet], (int)h->asked->rows,
                 (int)h->asked->warnings);
    return pass(at, line);
}

static const char *pass_sheets(const struct held *h, const char *at)
{
    char line[100];
    for (size_t i = 0; i < 5; i++) {
        const struct peer_answer *a = &h->by[i];
        if (a->number == 0)
            snprintf(line, sizeof line, "Sheet %c: accepted, warnings %d.\n",
                     "KSCEP"[i], (int)a->warnings);
        else
            snprintf(line, sizeof line,
                     "Sheet %c: refused (%d) at line %d, byte %d.\n",
                     "KSCEP"[i], (int)a->number, (int)a->line, (int)a->byte);
        at = pass(at, line);
    }
    return at;
}

/* A sentence in between for each finding, with its place. */
static void check_text(const struct held *h, size_t count)
{
    char start[80];
    const char *at = pass_heading(h, test_text);
    CHECK(h->what, at != NULL);
    for (size_t i = 0; i < count; i++) {
        const struct found *f = &test_found[i];
        snprintf(start, sizeof start, "Line %d, byte %d, ", (int)f->line,
                 (int)f->byte);
        at = pass_line(pass(at, start));
    }
    CHECK(h->what, at != NULL);
    at = pass_sheets(h, at);
    CHECK(h->what, at != NULL && *at == 0);
    bool plain = true;
    for (at = test_text; *at != 0; at++)
        plain = plain && (*at == '\n' || (*at >= 32 && *at <= 126));
    CHECK(h->what, plain);
    CHECK(h->what, h->asked->number == 0 || at - test_text <= 2048);
}

/* ---- both ---- */

size_t find_all(const char *what, unsigned sheet, uint64_t today,
                const void *file, size_t len)
{
    uint8_t *copy = copy_of(file, len);
    struct held h = {.what = what, .sheet = sheet, .today = today,
                     .file = copy, .len = len};
    for (unsigned i = 0; i < 5; i++)
        h.by[i] = read_whole(copy, len, i + 1, today);
    h.asked = &h.by[sheet - 1];
    size_t count = h.asked->number != 0 ? 1 : (size_t)h.asked->warnings;
    list_wants_room(&h, count);
    take_list(&h, count);
    check_list(&h, count);
    take_text(&h);
    check_text(&h, count);
    free(copy);
    return count;
}

static bool same(const struct found *got, const struct found *want)
{
    return memcmp(got, want, sizeof *got) == 0;
}

static void show(const char *which, const struct found *f)
{
    printf("  %s: %d cause %d line %d byte %d length %d field %d, %llu %llu\n",
           which, (int)f->number, (int)f->cause, (int)f->line, (int)f->byte,
           (int)f->length, (int)f->field, (unsigned long long)f->least,
           (unsigned long long)f->most);
}

void finds_bytes(const char *what, unsigned sheet, uint64_t today,
                 const void *file, size_t len, struct found want)
{
    find_all(what, sheet, today, file, len);
    bool right = test_list.refused == 1 && same(&test_found[0], &want);
    CHECK(what, right);
    if (!right) {
        printf("  sheet %u, refused %d\n", sheet, (int)test_list.refused);
        show("want", &want);
        if (test_list.count > 0)
            show("got", &test_found[0]);
    }
}

void finds_on(const char *what, unsigned sheet, uint64_t today,
              const char *file, uint64_t number, uint64_t cause, uint64_t line,
              size_t plus, uint64_t length, uint64_t field, uint64_t least,
              uint64_t most)
{
    size_t len = strlen(file);
    finds_bytes(what, sheet, today, file, len,
                (struct found){number, cause, line,
                               offset_of(file, len, line, plus), length, field,
                               least, most});
}

void finds(const char *what, unsigned sheet, const char *file, uint64_t number,
           uint64_t cause, uint64_t line, size_t plus, uint64_t length,
           uint64_t field, uint64_t least, uint64_t most)
{
    finds_on(what, sheet, TODAY, file, number, cause, line, plus, length, field,
             least, most);
}

void warns_on(const char *what, unsigned sheet, uint64_t today,
              const char *file, size_t count, const struct found *want)
{
    size_t len = strlen(file), got = find_all(what, sheet, today, file, len);
    CHECK(what, test_list.refused == 0 && got == count);
    if (test_list.refused != 0 || got != count)
        printf("  sheet %u: refused %d, findings %d\n", sheet,
               (int)test_list.refused, (int)got);
    for (size_t i = 0; i < count && i < got; i++) {
        struct found w = want[i];
        w.number = 0;
        w.byte = offset_of(file, len, w.line, (size_t)w.byte);
        CHECK(what, same(&test_found[i], &w));
        if (!same(&test_found[i], &w)) {
            show("want", &w);
            show("got", &test_found[i]);
        }
    }
}

void warns(const char *what, unsigned sheet, const char *file, size_t count,
           const struct found *want)
{
    warns_on(what, sheet, TODAY, file, count, want);
}

void words_on(const char *what, unsigned sheet, uint64_t today,
              const char *file, const char *lines)
{
    find_all(what, sheet, today, file, strlen(file));
    size_t len = strlen(lines);
    const char *start = pass_line(test_text);
    bool right = strncmp(start, lines, len) == 0 &&
                 strncmp(start + len, "Sheet K: ", 9) == 0;
    CHECK(what, right);
    if (!right)
        printf("  want:\n%s  got:\n%s", lines, start);
}

void words(const char *what, unsigned sheet, const char *file,
           const char *lines)
{
    words_on(what, sheet, TODAY, file, lines);
}
