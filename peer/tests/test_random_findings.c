/* Findings of random files, whole and damaged, on every sheet and on several
   days: what holds of every file, and each finding against the file's bytes and
   rows by other means than the library's. */
#include "check_findings.h"

enum { ROOM = 8192, MOST = 64 };

static uint8_t file[ROOM];
static size_t len;

/* How often each cause was met, to see that chance reaches them. */
static unsigned met[1100];

/* ---- a file with more to find ---- */

static void put_in(size_t at, const char *bytes)
{
    size_t more = strlen(bytes);
    memmove(file + at + more, file + at, len - at);
    memcpy(file + at, bytes, more);
    len += more;
}

static void take_out(size_t at, size_t count)
{
    memmove(file + at, file + at + count, len - at - count);
    len -= count;
}

/* The start of some line but the first, which has fields by place. */
static size_t some_line(void)
{
    size_t at = 58 + (size_t)below(len - 58);
    while (at > 0 && file[at - 1] != '\n')
        at--;
    return at;
}

/* The place behind so many spaces of the line, or its end. */
static size_t behind_spaces(size_t at, uint64_t spaces)
{
    for (; at < len && file[at] != '\r' && file[at] != '\n'; at++)
        if (file[at] == ' ' && --spaces == 0)
            return at + 1;
    return at;
}

/* A message or a name past its bytes or its parts. */
static void stretch(size_t at)
{
    static const char *const longer[] = {
        "12345678901234567890123456789012345",
        "123456789012345678901234567890123456|",
        "12345678901234567890123456789012345678 NP:",
        " NP:123456789012345678901234567890123456",
        "a|b",
        "#",
    };
    while (at < len && file[at] != ':' && file[at] != '\n')
        at++;
    if (at < len && file[at] == ':')
        put_in(at + 1, longer[below(6)]);
}

/* A whole line once more, or not at all. */
static void lines_trouble(size_t at)
{
    const uint8_t *end = memchr(file + at, '\n', len - at);
    char line[400] = "";
    if (end == NULL || end - (file + at) > 300)
        return;
    size_t size = (size_t)(end - (file + at)) + 1;
    memcpy(line, file + at, size);
    if (one_in(2))
        take_out(at, size);
    else
        put_in(at, line);
}

static void trouble(void)
{
    size_t at = some_line(), field;
    switch (below(6)) {
    case 0:
        field = behind_spaces(at, 3 + below(2));
        put_in(field, one_in(2) ? "1" : "02");
        break;
    case 1:
        field = behind_spaces(at, 3 + below(2));
        if (len - field > 4)
            memcpy(file + field, "0000", 4);
        break;
    case 2:
        put_in(behind_spaces(at, 1 + below(2)), one_in(2) ? "1" : "0");
        break;
    case 3:
        if (file[at] == '1')
            file[at + 7] = (uint8_t)('0' + below(10));
        break;
    case 4:
        lines_trouble(at);
        break;
    default:
        stretch(at);
    }
}

/* ---- the bytes found ---- */

static bool ends_line(uint64_t at)
{
    return at == len || file[at] == '\r' || file[at] == '\n';
}

static uint64_t to_line_end(uint64_t at)
{
    uint64_t end = at;
    while (!ends_line(end))
        end++;
    return end - at;
}

static uint64_t to_space(uint64_t at)
{
    uint64_t end = at;
    while (!ends_line(end) && file[end] != ' ')
        end++;
    return end - at;
}

static uint64_t by_place(const struct found *f)
{
    static const uint64_t lengths[] = {0, 6, 20, 10, 3, 3, UINT64_MAX};
    uint64_t rest = to_line_end(f->byte), length = lengths[f->field];
    return length < rest ? length : rest;
}

static bool length_is_right(const struct found *f)
{
    switch (f->cause) {
    case 41:
        return f->length == 0 && ends_line(f->byte);
    case 42:
        return file[f->byte] == ' ' && f->length == to_line_end(f->byte);
    default:
        break;
    }
    if (f->field == 0 || f->field == 36 || f->field >= 50)
        return f->length == to_line_end(f->byte);
    return f->length == (f->field <= 6 ? by_place(f) : to_space(f->byte));
}

/* ---- fields and limits ---- */

/* Fields in which a cause can be found, by its number. */
static bool field_is_right(const struct found *f)
{
    uint64_t field = f->field;
    switch (f->number) {
    case 3:
    case 15:
        return field == 0;
    case 4:
        return f->cause == 43 ? field == 50 || field == 51
                              : field >= 1 && field <= 36;
    case 5:
        return field == 20 || field == 30 || field == 31;
    case 6:
        return field == 32;
    case 7:
        return field == 10;
    case 8:
        return field == 12;
    case 9:
        return field == (f->cause == 90 ? 5 : 11);
    case 10:
        return field == 21;
    case 11:
        return f->cause >= 113 ? field == 34 : field == 1 || field == 22;
    case 12:
    case 13:
        return field == 34;
    default:
        return field == 36;
    }
}

static bool limits_are(const struct found *f, uint64_t least, uint64_t most)
{
    return f->least == least && f->most == most;
}

static bool limits_are_right(const struct found *f, unsigned sheet,
                             uint64_t today)
{
    static const uint64_t banks[] = {0, 8100, 800, 0, 6100, 300};
    static const uint64_t kinds[] = {0, 1501, 1502, 1504, 1501, 1502};
    static const uint64_t ahead[] = {0, 364, 0, 365, 0, 365};
    switch (f->number) {
    case 6:
        return limits_are(f, 1, sheet == S || sheet == E
                                    ? UINT64_C(999999999999)
                                    : UINT64_C(99999999999999));
    case 7:
        return limits_are(f, 1501, kinds[sheet]);
    case 8:
        return limits_are(f, banks[sheet], banks[sheet]);
    case 9:
        return f->least <= 999 && f->most <= 999;
    case 10:
        return f->cause == 100 ? f->least == f->most
                               : limits_are(f, 0, UINT64_C(99999999999999));
    case 11:
        if (f->cause == 110)
            return limits_are(f, 20000101, 20991231);
        if (f->cause >= 113)
            return f->least == today && f->most <= 1;
        return limits_are(f, sheet == K || sheet == S ? today : 0,
                          ahead[sheet]);
    case 12:
        return limits_are(f, 1, 9999);
    case 14:
        return limits_are(f, sheet == S ? 1 : 4, 35);
    default:
        return limits_are(f, 0, 0);
    }
}

/* ---- a refused file ---- */

/* The fields of an item or a head before the place: spaces, as the dividers are
   single there.  S and E always have the payer's field; else it is the third
   space that tells. */
static bool field_by_spaces(const struct found *f, unsigned sheet, bool single)
{
    uint64_t start = f->byte, field = 0, spaces = 0;
    while (start > 0 && !ends_line(start - 1))
        start--;
    for (uint64_t at = start; at < f->byte; at++)
        spaces += file[at] == ' ';
    if (f->cause == 41)
        spaces++;
    if (f->cause == 43 || f->field <= 6)
        return true;
    if (file[start] == '1' && file[start + 1] == ' ') {
        field = 9 + spaces;
    } else if (file[start] == '2' && file[start + 1] == ' ') {
        uint64_t all = 0;
        for (uint64_t at = start; !ends_line(at); at++)
            all += file[at] == ' ';
        bool payer = sheet == S || sheet == E || all >= 3;
        field = (payer ? 19 : 20) + spaces;
    } else {
        field = (single ? 30 : 31) + spaces;
        /* C may have no symbol; a text's spaces are behind its start. */
        if (sheet == C && field == 35)
            field = 36;
    }
    return f->field == field;
}

/* The last group before the place is single if its payer has no digit but
   zeros.  For by_spaces sheets, two fields mean none. */
static bool group_is_single(uint64_t place)
{
    uint64_t start = place;
    while (start > 0 && !(ends_line(start - 1) && file[start] == '2' &&
                          file[start + 1] == ' '))
        start--;
    uint64_t spaces = 0;
    for (uint64_t at = start; !ends_line(at); at++)
        spaces += file[at] == ' ';
    if (spaces < 3)
        return true;
    for (uint64_t at = start + 2; file[at] != ' '; at++)
        if (file[at] >= '1' && file[at] <= '9')
            return false;
    return true;
}

static void check_refusal(unsigned sheet, uint64_t today)
{
    const struct found *f = &test_found[0];
    bool right = f->cause / 10 == f->number && length_is_right(f) &&
                 field_is_right(f) && limits_are_right(f, sheet, today);
    if (f->number != 3)
        right = right && field_by_spaces(f, sheet, group_is_single(f->byte));
    CHECK("random findings: a refusal", right);
    if (!right)
        printf("  sheet %u: %d cause %d line %d byte %d length %d field %d\n"
               "%.*s\n",
               sheet, (int)f->number, (int)f->cause, (int)f->line, (int)f->byte,
               (int)f->length, (int)f->field, (int)len, (const char *)file);
    met[f->cause]++;
}

/* ---- an accepted file ---- */

static uint64_t words_of[MOST][WORDS];

/* Reads the rows of a file that the sheet accepts. */
static size_t take_rows(unsigned sheet, uint64_t today)
{
    static uint8_t rows[MOST * ROW];
    struct peer_answer a =
        peer_read(file, len, sheet, today, rows, sizeof rows);
    for (size_t i = 0; i < a.rows * ROW; i += 8) {
        uint64_t word = 0;
        for (int k = 7; k >= 0; k--)
            word = word << 8 | rows[i + k];
        words_of[i / ROW][i % ROW / 8] = word;
    }
    return (size_t)a.rows;
}

/* Each row has a line, and closing lines and the first have none. */
static const uint64_t *row_of_line(uint64_t line, size_t rows, size_t *index)
{
    size_t row = 0;
    uint64_t at = 0;
    for (uint64_t n = 1; n < line; n++) {
        bool closes = file[at] == '3' || file[at] == '5';
        closes = closes && (file[at + 1] == ' ' || file[at + 1] == '+');
        row += n > 1 && !closes;
        at += to_line_end(at);
        at += file[at] == '\r' && at + 1 < len && file[at + 1] == '\n' ? 2 : 1;
    }
    *index = row;
    return row < rows ? words_of[row] : NULL;
}

static uint64_t sum_behind(size_t group, size_t rows)
{
    uint64_t sum = 0;
    for (size_t i = group + 1; i < rows && words_of[i][0] == 3; i++)
        sum += words_of[i][6];
    return sum;
}

static uint64_t digits_found(const struct found *f)
{
    uint64_t value = 0;
    for (uint64_t i = 0; i < f->length; i++)
        if (file[f->byte + i] >= '0' && file[f->byte + i] <= '9')
            value = value * 10 + file[f->byte + i] - '0';
    return value;
}

/* A text that was cut has its place and 35 bytes in its row, and in the file it
   goes on. */
static bool cut_is_right(const struct found *f, const uint64_t *row)
{
    size_t word = f->cause == 1013 ? 19 : 11 + 2 * (f->field - 37);
    uint64_t end = f->byte + f->length;
    if (f->cause == 1012 && (f->field < 37 || f->field > 40))
        return false;
    bool ends = ends_line(end) ||
                (f->cause == 1012 && (file[end] == '|' ||
                                      memcmp(file + end, " NP:", 4) == 0));
    return row[0] == 3 && row[word] == f->byte && row[word + 1] == 35 &&
           f->length > 35 && limits_are(f, 0, 35) && ends;
}

static bool warning_is_right(const struct found *f, unsigned sheet,
                             uint64_t today, size_t rows)
{
    size_t index;
    const uint64_t *row = row_of_line(f->line, rows, &index);
    if (row == NULL)
        return false;
    switch (f->cause) {
    case 1010:
        return (sheet == C || sheet == E) && row[0] == 2 && f->field == 21 &&
               limits_are(f, sum_behind(index, rows), f->least) &&
               digits_found(f) != f->least && f->length == to_space(f->byte);
    case 1011:
        return (sheet == C || sheet == P) && row[0] == 2 && f->field == 22 &&
               row[1] < today && limits_are(f, today, 0) &&
               f->length == to_line_end(f->byte);
    case 1012:
    case 1013:
        return sheet == C && cut_is_right(f, row);
    case 1014:
        return sheet == K && row[0] == 3 && row[10] == 5 && f->field == 34 &&
               digits_found(f) / 100000000 == f->least &&
               (f->least == 1 || f->least == 2) && f->most == 5 &&
               f->length == to_space(f->byte);
    default:
        return false;
    }
}

static void check_warnings(unsigned sheet, uint64_t today, size_t count)
{
    size_t rows = take_rows(sheet, today);
    for (size_t i = 0; i < count; i++) {
        bool right = warning_is_right(&test_found[i], sheet, today, rows);
        CHECK("random findings: a warning", right);
        if (!right)
            printf("  sheet %u: cause %d line %d byte %d length %d\n%.*s\n",
                   sheet, (int)test_found[i].cause, (int)test_found[i].line,
                   (int)test_found[i].byte, (int)test_found[i].length, (int)len,
                   (const char *)file);
        met[test_found[i].cause]++;
    }
}

/* ---- the runs ---- */

static void check_file(unsigned sheet, uint64_t today)
{
    size_t count = find_all("random findings", sheet, today, file, len);
    if (test_list.refused != 0)
        check_refusal(sheet, today);
    else
        check_warnings(sheet, today, count);
}

/* The sheet that the file was drawn for, at times another; today, at times
   another day. */
static void random_file(unsigned drawn)
{
    static const uint64_t todays[] = {TODAY,    20180102, 20171231,
                                      20180131, 20000101, 20991231};
    len = draw_batch_file(drawn, file, ROOM / 2);
    for (uint64_t times = below(4); times > 0 && len > 100; times--)
        trouble();
    if (one_in(2))
        len = damage_batch_file(file, len);
    unsigned sheet = one_in(8) ? K + (unsigned)below(5) : drawn;
    check_file(sheet, one_in(6) ? todays[below(6)] : TODAY);
}

void test_random_findings(void)
{
    static const unsigned causes[] = {
        30,  31,  32,  33,  34,  35,  36,   40,   41,   42,   43,  50,  51,
        52,  61,  70,  80,  90,  91,  100,  110,  111,  112,  113, 114, 120,
        130, 131, 140, 141, 142, 143, 144,  1010, 1011, 1012, 1013, 1014,
    };
    for (int i = 0; i < 5 * 8000; i++)
        random_file(K + (unsigned)i % 5);
    for (size_t i = 0; i < sizeof causes / sizeof *causes; i++) {
        CHECK("random findings: each cause is met", met[causes[i]] > 0);
        if (met[causes[i]] == 0)
            printf("  %u\n", causes[i]);
    }
}
