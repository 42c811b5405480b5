/* Random files against random registers (request W-207): each answer is told
   beforehand from the one without a register and from a day kept by hand.  Then
   whole days, call by call. */
#include "check_register.h"

enum { MOST = 32, ROOM = 8192 };

static uint8_t file[ROOM];
static unsigned seen[25]; /* answers of each number */

/* ---- files ---- */

/* Where the next account file's head begins, from here on, and its line; the
   place is the length if there is none. */
static size_t next_head(const uint8_t *text, size_t len, size_t at,
                        uint64_t *line)
{
    while (at < len) {
        if (len - at >= 13 && text[at] == '1' && text[at + 1] == ' ')
            return at;
        while (at < len && text[at] != '\r' && text[at] != '\n')
            at++;
        bool both = len - at >= 2 && text[at] == '\r' && text[at + 1] == '\n';
        at += both ? 2 : 1;
        ++*line;
    }
    return len;
}

/* So many digits as a number; another byte stands for some digit, so that the
   number has no more. */
static uint64_t digits_at(const uint8_t *at, size_t count)
{
    uint64_t value = 0;
    for (size_t i = 0; i < count; i++)
        value = value * 10 + (at[i] + 50u - '0') % 10;
    return value;
}

static void put_three(uint8_t *at, uint64_t value)
{
    at[0] = (uint8_t)('0' + value / 100);
    at[1] = (uint8_t)('0' + value / 10 % 10);
    at[2] = (uint8_t)('0' + value % 10);
}

/* Gives the account files other numbers: mostly all unlike, at times repeated
   or outside, then with the interval cut. */
static void renumber(size_t len)
{
    bool tidy = !one_in(4);
    uint64_t line = 1, number = below(NUMBERS), step = 1 + below(300);
    memcpy(file + 40, "000999", 6);
    for (size_t at = 0; (at = next_head(file, len, at, &line)) < len; at++) {
        put_three(file + at + 7, number);
        number = tidy ? (number + step) % NUMBERS : below(4);
    }
    if (!tidy && one_in(2))
        put_three(file + 43, below(NUMBERS));
}

/* A file of K that is right but for its numbers at times; its creation date is
   one of four. */
static size_t draw_file(void)
{
    static const char *const dates[] = {"010100", "290224", "311299", "010118"};
    size_t len = draw_batch_file(K, file, ROOM - 8);
    if (len < 60)
        return len;
    memcpy(file + 4, dates[below(4)], 6);
    renumber(len);
    return len;
}

/* As spelled; not of a day, perhaps. */
static uint64_t file_date(void)
{
    uint64_t digits = digits_at(file + 4, 6);
    return (2000 + digits % 100) * 10000 + digits / 100 % 100 * 100 +
           digits / 10000;
}

/* ---- registers ---- */

static void draw_marks(struct day *d, size_t len)
{
    uint64_t line = 1, dense = below(5);
    for (size_t n = 0; n < NUMBERS; n++)
        d->marked[n] = below(4) < dense;
    if (one_in(2))
        return;
    /* The file's own numbers are left free, one perhaps excepted. */
    for (size_t at = 0; (at = next_head(file, len, at, &line)) < len; at++)
        d->marked[digits_at(file + at + 7, 3)] = one_in(6);
}

/* Mostly one that fits the file. */
static void draw_day(struct day *d, size_t len)
{
    static const uint64_t dates[] = {20000101, 20240229, 20991231, 20180101,
                                     20240230, 20000100, 19991231, 0};
    day_start(d, file_date());
    draw_marks(d, len);
    if (one_in(8))
        d->date = dates[below(8)];
    if (one_in(12))
        d->marked[NUMBERS + below(24)] = true;
    else if (one_in(40))
        d->date = draw();
}

/* ---- what is to be answered ---- */

/* The first used number whose field lies before this byte: 22 there, or 0. */
static struct peer_answer first_used(const struct day *d, const uint8_t *text,
                                     size_t len, uint64_t before)
{
    uint64_t line = 1;
    size_t at = 0;
    while ((at = next_head(text, len, at, &line)) < len && at + 7 < before) {
        if (d->marked[digits_at(text + at + 7, 3)])
            return refusal(22, line, at + 7);
        at++;
    }
    return refusal(0, 0, 0);
}

/* All that stands before the plain fault is right, so that the date has been
   passed if the fault lies behind it, and so has a number. */
static struct peer_answer told(const struct reading *r,
                               const struct peer_answer *plain,
                               const struct day *d, bool whole)
{
    bool right = plain->number == 0 || plain->number == 16;
    uint64_t before = right ? UINT64_MAX : plain->byte;
    if (r->sheet != K || plain->number == 1 || plain->number == 2 ||
        before <= 4)
        return *plain;
    if (!whole || !day_is_sound(d) || d->date != file_date())
        return refusal(23, 1, 4);
    struct peer_answer used = first_used(d, r->file, r->len, before);
    return used.number != 0 ? used : *plain;
}

/* The numbers of the rows that reading without a register fills. */
static uint64_t row_numbers(const uint8_t *rows, uint64_t count,
                            bool numbers[NUMBERS])
{
    uint64_t files = 0;
    memset(numbers, 0, NUMBERS * sizeof numbers[0]);
    for (const uint8_t *row = rows; row < rows + count * ROW; row += ROW) {
        uint64_t number = 0;
        for (int i = 7; i >= 0; i--)
            number = number << 8 | row[16 + i];
        if (row[0] == 1) {
            files++;
            numbers[number / 1000] = true;
        }
    }
    return files;
}

/* The sentence of W-207: accepted exactly if reading without a register accepts
   it, the date is the register's and no number is used; then all of the batch's
   numbers are marked, and no others. */
static void accepted_exactly(const struct peer_answer *a,
                             const struct peer_answer *plain,
                             const uint8_t *plain_rows, const struct day *d,
                             bool whole, const uint8_t *reg)
{
    bool numbers[NUMBERS], fits = whole && day_is_sound(d);
    uint64_t files = row_numbers(plain_rows, plain->rows, numbers);
    struct day after = *d;
    fits = fits && plain->number == 0 && plain->header.date == d->date;
    for (size_t n = 0; n < NUMBERS; n++) {
        fits = fits && !(numbers[n] && d->marked[n]);
        after.marked[n] = d->marked[n] || numbers[n];
    }
    CHECK("random: accepted exactly then", (a->number == 0) == fits);
    if (a->number != 0)
        return;
    CHECK("random: exactly these are marked", day_is(&after, reg));
    CHECK("random: as many as there are account files",
          files >= 1 && day_free(d) - day_free(&after) == files);
}

/* ---- one file against one register ---- */

static void one_file(size_t len, unsigned sheet)
{
    static uint8_t plain_rows[MOST * ROW];
    struct reading r = {file, len, sheet, TODAY, sizeof plain_rows};
    struct day d;
    uint8_t reg[140], was[140];
    size_t reg_len = one_in(16) ? below(REGISTER) : REGISTER + below(5);
    if (one_in(12))
        r.room = below(8 * ROW);
    if (one_in(200))
        r.today = 20180229;
    draw_day(&d, len);
    memset(reg, (int)below(256), sizeof reg);
    day_spell(&d, reg);
    memcpy(was, reg, sizeof reg);
    struct peer_answer plain =
        peer_read(file, len, sheet, r.today, plain_rows, r.room);
    struct peer_answer want = told(&r, &plain, &d, reg_len >= REGISTER);
    struct peer_answer a = lent_read(&r, reg, reg_len);
    CHECK("random: as told", same_answer(&a, &want));
    CHECK("random: later bytes stay",
          memcmp(reg + REGISTER, was + REGISTER, 4) == 0);
    seen[a.number % 25]++;
    if (sheet == K)
        accepted_exactly(&a, &plain, plain_rows, &d, reg_len >= REGISTER, reg);
    else
        CHECK("random: another sheet keeps it", memcmp(reg, was, 140) == 0);
}

/* ---- files of other sheets, and wild bytes ---- */

static void wild_register(unsigned sheet)
{
    size_t len = draw_batch_file(sheet, file, ROOM - 8);
    if (one_in(2) && len > 0)
        len = damage_batch_file(file, len);
    struct reading r = {file, len, sheet, TODAY, MOST * ROW};
    uint8_t reg[140];
    size_t reg_len = below(sizeof reg + 1);
    for (size_t i = 0; i < sizeof reg; i++)
        reg[i] = (uint8_t)draw();
    struct peer_answer a = lent_read(&r, reg, reg_len);
    if (sheet == K)
        CHECK("random: wild bytes are no register", a.number != 0);
}

/* ---- whole days ---- */

static struct day today;     /* as it should be */
static uint8_t kept[140];    /* as the peer keeps it */
static size_t kept_len;

static bool is_as_it_should(void)
{
    for (size_t i = REGISTER; i < sizeof kept; i++)
        if (kept[i] != 0x77)
            return false;
    return day_is(&today, kept);
}

static void begin(uint64_t date)
{
    struct peer_register_answer a = lent_call(START, date, kept, kept_len);
    day_start(&today, date);
    CHECK("days: started", a.number == 0 && a.value == 0 && is_as_it_should());
}

static void ask(void)
{
    call_keeps("days: lowest", LOWEST, 0, kept, kept_len, 0,
               day_lowest(&today));
    call_keeps("days: free", FREE, 0, kept, kept_len, 0, day_free(&today));
}

/* The bank gives a number back, rightly or not. */
static void give_back(uint64_t n)
{
    bool right = n < NUMBERS && today.marked[n];
    struct peer_register_answer a = lent_call(GIVE_BACK, n, kept, kept_len);
    if (right)
        today.marked[n] = false;
    CHECK("days: given back or 24",
          a.number == (right ? 0 : 24) && a.value == 0);
    CHECK("days: its mark alone", is_as_it_should());
    seen[a.number % 25]++;
}

/* A file of these numbers, all unlike: its answer by hand. */
static void hand_in(uint64_t date, size_t count, const unsigned *numbers)
{
    const char *text = file_of(date, count, numbers);
    struct reading r = {text, strlen(text), K, TODAY, 3 * count * ROW};
    uint64_t number = date == today.date ? 0 : 23, line = number == 0 ? 0 : 1;
    for (size_t i = count; number != 23 && i > 0; i--)
        if (today.marked[numbers[i - 1] / 1000]) {
            number = 22;
            line = 5 * i - 3;
        }
    struct peer_answer a = lent_read(&r, kept, kept_len);
    uint64_t byte = number == 0    ? 0
                    : number == 23 ? 4
                                   : offset_of(text, r.len, line, 7);
    CHECK("days: the answer by hand",
          a.number == number && a.line == line && a.byte == byte);
    for (size_t i = 0; number == 0 && i < count; i++)
        today.marked[numbers[i] / 1000] = true;
    CHECK("days: the marks by hand", is_as_it_should());
    seen[a.number % 25]++;
}

/* Numbers of a few hundred, so that some come again. */
static void draw_numbers(unsigned *numbers, size_t count)
{
    unsigned first = (unsigned)below(NUMBERS), step = 1 + (unsigned)below(90);
    for (size_t i = 0; i < count; i++)
        numbers[i] = (first + (unsigned)i * step) % NUMBERS * 1000 +
                     (unsigned)below(1000);
}

static void live_a_day(void)
{
    static const uint64_t wild[] = {1000, 1023, 1024, UINT64_C(1) << 63,
                                    UINT64_MAX};
    unsigned numbers[10];
    kept_len = REGISTER + (size_t)below(5);
    memset(kept, 0x77, sizeof kept);
    begin(one_in(2) ? 20180101 : 20240229);
    for (int step = 0; step < 40; step++)
        switch (below(8)) {
        case 0:
            give_back(one_in(8) ? wild[below(5)] : below(NUMBERS));
            break;
        case 1: /* a number that was taken, if any was */
            for (uint64_t n = below(NUMBERS), i = 0; i < NUMBERS; i++)
                if (today.marked[(n + i) % NUMBERS]) {
                    give_back((n + i) % NUMBERS);
                    break;
                }
            break;
        case 2:
            ask();
            break;
        case 3: /* the lowest is handed out */
            numbers[0] = (unsigned)day_lowest(&today) % NUMBERS * 1000;
            hand_in(today.date, 1, numbers);
            break;
        case 4:
            if (one_in(12))
                begin(today.date);
            else if (one_in(3)) {
                draw_numbers(numbers, 1);
                hand_in(20180102, 1, numbers);
            }
            break;
        default: {
            size_t count = 1 + (size_t)below(10);
            draw_numbers(numbers, count);
            hand_in(today.date, count, numbers);
        }
        }
}

/* All numbers in some order, in files of some size, until none is free; then
   all are given back in another order. */
static void fill_a_day(void)
{
    static unsigned order[NUMBERS];
    for (unsigned i = 0; i < NUMBERS; i++) {
        size_t k = (size_t)below(i + 1);
        order[i] = order[k];
        order[k] = i * 1000 + (unsigned)below(1000);
    }
    kept_len = REGISTER;
    memset(kept, 0x77, sizeof kept);
    begin(20180101);
    for (size_t at = 0, count; at < NUMBERS; at += count) {
        count = 1 + (size_t)below(60);
        if (count > NUMBERS - at)
            count = NUMBERS - at;
        hand_in(20180101, count, order + at);
        ask();
    }
    call_keeps("days: none is free", LOWEST, 0, kept, kept_len, 0, 1000);
    call_keeps("days: none is free", FREE, 0, kept, kept_len, 0, 0);
    for (size_t i = 0; i < NUMBERS; i++) {
        hand_in(20180101, 1, order + i);
        give_back(order[(i * 7 + 3) % NUMBERS] / 1000);
        if (i % 8 == 0)
            ask();
    }
    CHECK("days: some were handed out again", day_free(&today) < NUMBERS);
}

/* ---- the tests ---- */

static void all_seen(const char *what, const unsigned *numbers, size_t count)
{
    for (size_t i = 0; i < count; i++)
        CHECK(what, seen[numbers[i]] > 30);
    memset(seen, 0, sizeof seen);
}

void test_random_registered(void)
{
    static const unsigned whole[] = {0, 9, 16, 22, 23};
    static const unsigned hurt[] = {0, 3, 4, 5, 9, 10, 11, 22, 23};
    static const unsigned others[] = {0, 3, 4, 16};
    static const unsigned of_days[] = {0, 22, 23, 24};
    for (int i = 0; i < 4000; i++)
        one_file(draw_file(), K);
    all_seen("random: every number of whole files", whole, 5);
    for (int i = 0; i < 6000; i++) {
        size_t len = draw_file();
        one_file(damage_batch_file(file, len), K);
    }
    all_seen("random: every number of damaged files", hurt, 9);
    for (int i = 0; i < 1500; i++) {
        unsigned sheet = S + i % 4;
        size_t len = draw_batch_file(sheet, file, ROOM - 8);
        one_file(one_in(2) ? damage_batch_file(file, len) : len, sheet);
    }
    CHECK("random: no 22 and no 23 elsewhere", seen[22] + seen[23] == 0);
    all_seen("random: every number of other sheets", others, 4);
    for (int i = 0; i < 1500; i++)
        wild_register(K + i % 5);
    for (int i = 0; i < 150; i++)
        live_a_day();
    fill_a_day();
    all_seen("days: every number", of_days, 4);
}
