/* Random batches come back as they were written, without their references;
   random damage to files and rows neither crashes nor touches what is not lent;
   what P accepts C accepts too. */
#include "check.h"

static struct batch_in b;

/* ---- valid batches ---- */

/* The rule of document 01, Accounts, by its own table of weights. */
static bool weighs_right(uint64_t value)
{
    static const unsigned weights[] = {1, 2, 4, 8, 5, 10, 9, 7, 3, 6};
    unsigned sum = 0;
    for (int i = 0; value > 0; value /= 10)
        sum += weights[i++] * (unsigned)(value % 10);
    return sum % 11 == 0;
}

static void draw_account(uint64_t *words)
{
    uint64_t limit = one_in(3) ? 10000 : 10000000000, nonzero;
    do {
        words[1] = below(limit);
        nonzero = 0;
        for (uint64_t v = words[1]; v > 0; v /= 10)
            nonzero += v % 10 != 0;
    } while (nonzero < 2 || !weighs_right(words[1]));
    words[0] = 0;
    if (one_in(2))
        do
            words[0] = below(1000000);
        while (!weighs_right(words[0]));
}

/* Kind 1502 has its own days on C and P (request W-202). */
static bool collects(unsigned sheet, uint64_t kind)
{
    return (sheet == C || sheet == P) && kind == 1502;
}

static uint64_t draw_day(unsigned sheet, uint64_t kind)
{
    static const uint64_t days[][4] = {
        {0},
        {20180101, 20181231, 20180228, 20180615},
        {20180101, 20991231, 20200229, 20180228},
        {20180101, 20190101, 20000101, 20171231},
        {20000229, 20991231, 20180101, 20171231},
        {20180101, 20190101, 20000101, 20171231},
        {20180101, 20180102, 20180131, 20180201},
    };
    return days[collects(sheet, kind) ? 6 : sheet][below(4)];
}

/* Half of the collections are from 0300, and all of those due today. */
static uint64_t draw_bank(bool collection, uint64_t day)
{
    if (collection && (day == TODAY || one_in(2)))
        return 300;
    return 1 + below(9999);
}

static void draw_text(uint64_t *row, size_t word, unsigned sheet)
{
    static const char *const bits[] = {"NP:", " NP", "AV:", "  ",
                                       ":",   "17",  " NP:"};
    char text[80] = "";
    size_t len = 0, limit = one_in(4) ? 35 : below(12) + 1;
    while (len < limit) {
        if (one_in(6)) {
            strcpy(text + len, bits[below(7)]);
            len = strlen(text);
            continue;
        }
        unsigned char byte = (unsigned char)(32 + below(224));
        if (byte == 127 || (byte == '|' && word != 19))
            continue;
        if (sheet == P && (byte == '#' || byte == '~'))
            continue;
        text[len++] = (char)byte;
        text[len] = 0;
    }
    text[limit] = 0;
    if (sheet == C && word != 19 && strstr(text, " NP:") != NULL)
        text[0] = 0;
    batch_text(&b, row, word, text);
}

static void draw_item(unsigned sheet, bool single, uint64_t bank)
{
    uint64_t *row = batch_item(&b);
    if (single)
        draw_account(row + 1);
    draw_account(row + 3);
    row[5] = bank;
    row[6] = 1 + below(one_in(2) ? 1000000 : 999999999999);
    row[7] = one_in(3) ? 0 : below(10000000000);
    row[8] = one_in(2) ? 0 : below(10000000000);
    row[9] = below(10000);
    row[10] = sheet == K ? 3 + below(7) : 5;
    for (size_t word = 11; word <= 17; word += 2)
        if (one_in(3) && (sheet != S || word == 11))
            draw_text(row, word, sheet);
    if (sheet == C && one_in(2))
        draw_text(row, 19, sheet);
    row[21] = one_in(3) ? 0 : below(UINT64_C(1) << 32);
}

static void draw_group(unsigned sheet, uint64_t kind)
{
    uint64_t payer[2] = {0, 0}, day = draw_day(sheet, kind);
    if (one_in(2))
        draw_account(payer);
    batch_group(&b, day, payer[0], payer[1]);
    for (uint64_t i = 1 + below(3); i > 0; i--)
        draw_item(sheet, payer[1] == 0, draw_bank(collects(sheet, kind), day));
}

static void draw_batch(unsigned sheet)
{
    static const uint64_t kinds[] = {0, 1, 2, 4, 1, 2};
    batch_start(&b);
    b.rows = 0;
    b.date = one_in(2) ? 20240229 : 20000101;
    b.client = below(10000000000);
    b.from = below(100);
    b.to = 200 + below(800);
    for (int i = 0; i < 20; i++)
        b.name[i] = (uint8_t)(128 + below(128));
    uint64_t files = 1 + below(3), number = 100000 + below(1000);
    for (uint64_t f = 0; f < files; f++) {
        uint64_t kind = 1501 + below(kinds[sheet]);
        batch_file(&b, kind, number + f * 1000);
        for (uint64_t g = 1 + below(2); g > 0; g--)
            draw_group(sheet, kind);
    }
}

size_t draw_batch_file(unsigned sheet, uint8_t *out, size_t room)
{
    draw_batch(sheet);
    struct peer_written w = batch_write(&b, sheet, TODAY, room);
    CHECK("random: a file is drawn", w.number == 0);
    if (w.number != 0)
        return 0;
    memcpy(out, test_out, (size_t)w.bytes);
    return (size_t)w.bytes;
}

/* Collections drawn so far: groups due today and one month ahead, and pairs of
   items that follow each other, one of them from 0300. */
struct drawn {
    unsigned today, month_ahead, mixed;
};

static void count_collections(unsigned sheet, struct drawn *drawn)
{
    bool collecting = collects(sheet, b.words[0][1]);
    for (size_t i = 1; i < b.rows; i++) {
        const uint64_t *row = b.words[i], *before = b.words[i - 1];
        if (row[0] == 1)
            collecting = collects(sheet, row[1]);
        if (!collecting)
            continue;
        drawn->today += row[0] == 2 && row[1] == TODAY;
        drawn->month_ahead += row[0] == 2 && row[1] == 20180201;
        drawn->mixed += row[0] == 3 && before[0] == 3 &&
                        (row[5] == 300) != (before[5] == 300);
    }
}

/* C and P warn of these. */
static uint64_t past_days(void)
{
    uint64_t past = 0;
    for (size_t i = 0; i < b.rows; i++)
        past += b.words[i][0] == 2 && b.words[i][1] < TODAY;
    return past;
}

/* ---- equality, to which references do not count ---- */

static bool same_text(const uint64_t *x, const uint8_t *x_bytes,
                      const uint64_t *y, const uint8_t *y_bytes, size_t word)
{
    size_t len = (size_t)x[word + 1];
    return len == y[word + 1] &&
           (len == 0 ||
            memcmp(x_bytes + x[word], y_bytes + y[word], len) == 0);
}

static bool same_row(const uint64_t *x, const uint8_t *x_bytes,
                     const uint64_t *y, const uint8_t *y_bytes)
{
    size_t plain = x[0] == 1 ? 3 : x[0] == 2 ? 4 : 11;
    for (size_t i = 0; i < plain; i++)
        if (x[i] != y[i])
            return false;
    for (size_t word = 11; x[0] == 3 && word <= 19; word += 2)
        if (!same_text(x, x_bytes, y, y_bytes, word))
            return false;
    return true;
}

/* ---- a read into words, with guards ---- */

enum { MOST = 64 };

struct read_in {
    struct peer_answer answer;
    uint64_t words[MOST][WORDS];
    bool guarded;
};

static void read_file(struct read_in *r, const uint8_t *file, size_t len,
                      unsigned sheet)
{
    static uint8_t room[8 + MOST * ROW + 8], fresh[sizeof room];
    memset(fresh, 0x5a, sizeof fresh);
    memset(room, 0x5a, sizeof room);
    r->answer = peer_read(file, len, sheet, TODAY, room + 8, MOST * ROW);
    size_t used = (size_t)r->answer.rows * ROW;
    r->guarded = memcmp(room, fresh, 8) == 0 &&
                 memcmp(room + 8 + used, fresh, sizeof room - 8 - used) == 0;
    for (size_t i = 0; i < used; i += 8) {
        uint64_t word = 0;
        for (int k = 7; k >= 0; k--)
            word = word << 8 | room[8 + i + k];
        r->words[i / ROW][i % ROW / 8] = word;
    }
}

/* The batch that a reading gave, lent for writing. */
static void batch_of(const struct read_in *in, const uint8_t *file, size_t len)
{
    const struct peer_header *h = &in->answer.header;
    b.rows = (size_t)in->answer.rows;
    b.left_over = 0;
    memcpy(b.words, in->words, b.rows * sizeof b.words[0]);
    memcpy(b.texts, file, len);
    b.texts_len = len;
    b.date = h->date;
    b.client = h->client;
    b.from = h->from;
    b.to = h->to;
    memcpy(b.name, h->name, 20);
    b.name_len = 20;
}

/* What the rewriting program makes of a file. */
static bool rewrites_to(unsigned sheet, const uint8_t *file, size_t len,
                        const uint8_t *want, size_t want_len)
{
    static uint8_t in[8300], out[20000];
    memcpy(in, "? 010118\n", 9);
    in[0] = (uint8_t)"?KSCEP"[sheet];
    memcpy(in + 9, file, len);
    struct peer_text t = peer_rewrite(in, len + 9, out, sizeof out);
    return t.number == 0 && t.bytes == want_len &&
           memcmp(out, want, want_len) == 0;
}

/* ---- the tests ---- */

static uint8_t canonical[8192];
static struct read_in r, again;

/* No file carries references: none come back, and without them the batch is
   written alike. */
static void without_references(unsigned sheet, size_t len)
{
    bool none = true;
    for (size_t i = 0; i < b.rows; i++) {
        none = none && r.words[i][21] == 0;
        b.words[i][21] = 0;
    }
    CHECK("random: no reference comes back", none);
    struct peer_written w = batch_write(&b, sheet, TODAY, sizeof canonical);
    CHECK("random: references change nothing",
          w.number == 0 && w.bytes == len &&
              memcmp(test_out, canonical, len) == 0);
}

static void round_trip(unsigned sheet, struct drawn *drawn)
{
    draw_batch(sheet);
    count_collections(sheet, drawn);
    struct peer_written w = batch_write(&b, sheet, TODAY, sizeof canonical);
    CHECK("random: written", w.number == 0);
    if (w.number != 0)
        return;
    memcpy(canonical, test_out, (size_t)w.bytes);
    read_file(&r, canonical, (size_t)w.bytes, sheet);
    bool same = r.answer.number == 0 && r.answer.rows == b.rows && r.guarded;
    for (size_t i = 0; same && i < b.rows; i++)
        same = same_row(b.words[i], b.texts, r.words[i], canonical);
    CHECK("random: the same rows come back", same);
    const struct peer_header *h = &r.answer.header;
    CHECK("random: the same header comes back",
          sheet == C || (h->date == b.date && h->client == b.client &&
                         h->from == b.from && h->to == b.to &&
                         memcmp(h->name, b.name, 20) == 0));
    CHECK("random: no warnings but for past days",
          r.answer.warnings == (sheet == C || sheet == P ? past_days() : 0));
    CHECK("random: rewriting keeps it",
          rewrites_to(sheet, canonical, (size_t)w.bytes, canonical,
                      (size_t)w.bytes));
    without_references(sheet, (size_t)w.bytes);
}

size_t damage_batch_file(uint8_t *file, size_t len)
{
    static const char bytes[] = " 0123456789-+|,\r\nAVNP:x\x7f\x01\xff  00#~";
    for (uint64_t times = 1 + below(3); times > 0 && len > 1; times--) {
        size_t at = (size_t)below(len);
        uint8_t byte = (uint8_t)bytes[below(sizeof bytes - 1)];
        switch (below(4)) {
        case 0:
            memmove(file + at, file + at + 1, len - at - 1);
            len--;
            break;
        case 1:
            memmove(file + at + 1, file + at, len - at);
            len++;
            /* fall through */
        case 2:
            file[at] = byte;
            break;
        default:
            if (one_in(8))
                len = at + 1;
            else
                file[at] = file[below(len)];
        }
    }
    return len;
}

/* A damaged file is refused, or it is read, written and read alike. */
static unsigned damaged_file(unsigned sheet)
{
    draw_batch(sheet);
    struct peer_written w = batch_write(&b, sheet, TODAY, 4000);
    if (w.number != 0)
        return 0;
    size_t len = (size_t)w.bytes;
    memcpy(canonical, test_out, len);
    len = damage_batch_file(canonical, len);
    uint8_t *file = malloc(len);
    if (file == NULL)
        exit(2);
    memcpy(file, canonical, len);
    read_file(&r, file, len, sheet);
    CHECK("random: guards of reading", r.guarded);
    if (r.answer.number == 0 && len <= sizeof b.texts) {
        batch_of(&r, file, len);
        w = batch_write(&b, sheet, TODAY, sizeof canonical);
        CHECK("random: what is read can be written", w.number == 0);
        if (w.number == 0) {
            size_t size = (size_t)w.bytes;
            memcpy(canonical, test_out, size);
            read_file(&again, canonical, size, sheet);
            bool same = again.answer.number == 0 &&
                        again.answer.rows == r.answer.rows;
            for (size_t i = 0; same && i < r.answer.rows; i++)
                same = same_row(r.words[i], file, again.words[i], canonical);
            CHECK("random: read alike", same);
            CHECK("random: rewriting", rewrites_to(sheet, file, len, canonical,
                                                   size));
            CHECK("random: rewriting twice",
                  rewrites_to(sheet, canonical, size, canonical, size));
        }
    }
    free(file);
    return r.answer.number == 0;
}

static bool reference_is_wild(void)
{
    for (size_t i = 0; i < b.rows; i++)
        if (b.words[i][0] == 3 && b.words[i][21] >> 32 != 0)
            return true;
    return false;
}

/* Rows with wild words; whatever is written is read alike. */
static unsigned damaged_rows(unsigned sheet)
{
    draw_batch(sheet);
    for (uint64_t times = 1 + below(3); times > 0; times--) {
        uint64_t wild[] = {0, 1, 2, 3, 4, 5, 36, b.texts_len, UINT64_MAX,
                           UINT64_MAX - 34, UINT64_C(1) << 63, draw(),
                           20180229, 20180101, 20180201, 20180202, 300,
                           1502, UINT64_C(1) << 32};
        b.words[below(b.rows)][below(WORDS)] = wild[below(19)];
    }
    if (one_in(10))
        b.left_over = 1 + below(191);
    if (one_in(10))
        b.rows = below(b.rows);
    struct peer_written w = batch_write(&b, sheet, TODAY, 8192);
    CHECK("random: a known number", w.number == 0 || w.number == 20 ||
                                        w.number == 21);
    CHECK("random: a wild reference is 20",
          w.number == 20 || !reference_is_wild());
    if (w.number != 0)
        return reference_is_wild();
    read_file(&r, test_out, (size_t)w.bytes, sheet);
    bool same = r.answer.number == 0 && r.answer.rows == b.rows;
    for (size_t i = 0; same && i < b.rows; i++)
        same = same_row(b.words[i], b.texts, r.words[i], test_out);
    CHECK("random: what is written can be read", same);
    return 0;
}

/* ---- from P to C ---- */

/* Spells some fields of a canonical file in the other ways that P takes: dates
   of eight digits, joined accounts, other line ends. */
static size_t respelled(const uint8_t *file, size_t len, uint8_t *out)
{
    static const char *const ends[] = {"\r\n", "\n", "\r"};
    size_t at = 0, to = 0;
    while (at < len) {
        size_t start = at, spaces = 0;
        for (; file[at] != '\r'; at++) {
            size_t digits = 1;
            spaces += file[at] == ' ';
            out[to++] = file[at];
            if (file[at] != '-' || spaces > 1 || one_in(2))
                continue;
            while (file[at + digits] >= '0' && file[at + digits] <= '9')
                digits++;
            memset(out + --to, '0', 11 - digits);
            to += 11 - digits;
        }
        if (file[start] == '2' && file[start + 1] == ' ' && one_in(2)) {
            const uint8_t *date = file + at - 6;
            to -= 6;
            to += (size_t)sprintf((char *)out + to, "20%.2s%.2s%.2s",
                                  (const char *)date + 4,
                                  (const char *)date + 2, (const char *)date);
        }
        to += (size_t)sprintf((char *)out + to, "%s", ends[below(3)]);
        at += 2;
    }
    return to;
}

static bool holds_mark(const uint64_t *row, const uint8_t *bytes)
{
    for (size_t word = 11; row[0] == 3 && word <= 17; word += 2)
        for (size_t i = 0; i + 4 <= row[word + 1]; i++)
            if (memcmp(bytes + row[word] + i, " NP:", 4) == 0)
                return true;
    return false;
}

/* The sentence of W-201: what P accepts C accepts that day, as the same batch
   exactly if no part holds ` NP:`; then the rows' words and the warnings are
   the same too.  Counts files without and with the mark. */
static void moved_to_c(const uint8_t *file, size_t len, unsigned counts[2])
{
    read_file(&r, file, len, P);
    if (r.answer.number != 0)
        return;
    read_file(&again, file, len, C);
    size_t rows = (size_t)r.answer.rows;
    CHECK("random: C accepts what P accepts",
          again.answer.number == 0 && again.answer.rows == rows);
    bool same = again.answer.rows == rows, marked = false;
    for (size_t i = 0; i < rows; i++) {
        marked = marked || holds_mark(r.words[i], file);
        same = same && same_row(r.words[i], file, again.words[i], file);
    }
    CHECK("random: the same batch exactly without the mark", same != marked);
    CHECK("random: the same words and warnings without the mark",
          marked || (r.answer.warnings == again.answer.warnings &&
                     memcmp(r.words, again.words, rows * ROW) == 0));
    counts[marked]++;
}

static void moves_to_c(int times)
{
    static uint8_t file[2 * sizeof canonical];
    unsigned whole[2] = {0, 0}, hurt[2] = {0, 0};
    for (int i = 0; i < times; i++) {
        draw_batch(P);
        struct peer_written w = batch_write(&b, P, TODAY, sizeof canonical);
        CHECK("random: written on P", w.number == 0);
        if (w.number != 0)
            return;
        moved_to_c(test_out, (size_t)w.bytes, whole);
        size_t len = respelled(test_out, (size_t)w.bytes, file);
        moved_to_c(file, len, whole);
        len = damage_batch_file(file, len);
        moved_to_c(file, len, hurt);
    }
    CHECK("random: P reads what is only respelled",
          whole[0] + whole[1] == 2 * (unsigned)times);
    CHECK("random: files without the mark and with it",
          whole[0] > 300 && whole[1] > 300 && hurt[0] > 30 && hurt[1] > 30);
}

void test_random(void)
{
    unsigned kept = 0, wild = 0;
    struct drawn drawn = {0, 0, 0};
    for (int i = 0; i < 5 * 500; i++)
        round_trip(K + i % 5, &drawn);
    CHECK("random: collections at both ends and from several banks",
          drawn.today > 100 && drawn.month_ahead > 100 && drawn.mixed > 100);
    for (int i = 0; i < 5 * 2000; i++)
        kept += damaged_file(K + i % 5);
    CHECK("random: some damage is harmless", kept > 300);
    for (int i = 0; i < 5 * 1000; i++)
        wild += damaged_rows(K + i % 5);
    CHECK("random: some references are wild", wild > 50);
    moves_to_c(1500);
}
