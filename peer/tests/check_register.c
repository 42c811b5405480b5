#include "check_register.h"

/* ---- a day by hand ---- */

bool is_a_day(uint64_t date)
{
    uint64_t year = date / 10000, month = date / 100 % 100, days = 0;
    switch (month) {
    case 1: case 3: case 5: case 7: case 8: case 10: case 12:
        days = 31;
        break;
    case 4: case 6: case 9: case 11:
        days = 30;
        break;
    case 2:
        days = year % 4 == 0 ? 29 : 28;
        break;
    }
    return year / 100 == 20 && date % 100 != 0 && date % 100 <= days;
}

void day_start(struct day *d, uint64_t date)
{
    memset(d, 0, sizeof *d);
    d->date = date;
}

bool day_is_sound(const struct day *d)
{
    for (size_t n = NUMBERS; n < BITS; n++)
        if (d->marked[n])
            return false;
    return is_a_day(d->date);
}

uint64_t day_lowest(const struct day *d)
{
    uint64_t lowest = NUMBERS;
    for (size_t n = NUMBERS; n > 0; n--)
        if (!d->marked[n - 1])
            lowest = n - 1;
    return lowest;
}

uint64_t day_free(const struct day *d)
{
    uint64_t left = NUMBERS;
    for (size_t n = 0; n < NUMBERS; n++)
        left -= d->marked[n];
    return left;
}

static void put_word(uint8_t *at, uint64_t word)
{
    for (int i = 0; i < 8; i++)
        at[i] = (uint8_t)(word >> 8 * i);
}

void day_spell(const struct day *d, uint8_t *reg)
{
    put_word(reg, d->date);
    for (size_t word = 1; word <= 16; word++) {
        uint64_t bits = 0;
        for (size_t bit = 0; bit < 64; bit++)
            if (d->marked[64 * (word - 1) + bit])
                bits |= UINT64_C(1) << bit;
        put_word(reg + 8 * word, bits);
    }
}

bool day_is(const struct day *d, const uint8_t *reg)
{
    uint8_t want[REGISTER];
    day_spell(d, want);
    return memcmp(reg, want, REGISTER) == 0;
}

/* ---- files ---- */

const char *file_of(uint64_t date, size_t count, const unsigned *numbers)
{
    static char room[100 + 100 * 1001];
    char *at = room;
    at += sprintf(at, "UHL1%02d%02d%02dKLIENT TEST         1234567890000999\n",
                  (int)(date % 100), (int)(date / 100 % 100),
                  (int)(date / 10000 % 100));
    for (size_t i = 0; i < count; i++)
        at += sprintf(at,
                      "1 1501 %06u 8100\n2 19-19 5001 020118\n"
                      "705 5001 42 03000558\n3 +\n5 +\n", numbers[i]);
    return room;
}

/* ---- the calls of one register ---- */

static struct peer_register_answer make_call(enum call call, uint64_t value,
                                             uint8_t *reg, size_t len)
{
    switch (call) {
    case START:
        return peer_register_start(value, reg, len);
    case LOWEST:
        return peer_register_lowest(reg, len);
    case FREE:
        return peer_register_free(reg, len);
    default:
        return peer_register_give_back(reg, len, value);
    }
}

/* Lent one byte off, with GUARD bytes at least on both sides. */
static uint8_t *lend_odd(const uint8_t *bytes, size_t len)
{
    uint8_t *room = lend(len + 1);
    if (len > 0)
        memcpy(room + GUARD + 1, bytes, len);
    return room;
}

static bool odd_is_guarded(const uint8_t *room, size_t len)
{
    return untouched(room, GUARD + 1) &&
           untouched(room + GUARD + 1 + len, GUARD);
}

struct peer_register_answer lent_call(enum call call, uint64_t value,
                                      uint8_t *reg, size_t len)
{
    uint8_t *exact = copy_of(reg, len), *room = lend_odd(reg, len);
    struct peer_register_answer a, b;
    a = make_call(call, value, len > 0 ? exact : NULL, len);
    b = make_call(call, value, room + GUARD + 1, len);
    CHECK("register: the same answer at any place",
          a.number == b.number && a.value == b.value);
    CHECK("register: the same bytes at any place",
          memcmp(exact, room + GUARD + 1, len) == 0);
    CHECK("register: guards of a call", odd_is_guarded(room, len));
    if (len > 0)
        memcpy(reg, exact, len);
    free(exact);
    free(room);
    return a;
}

void call_keeps(const char *what, enum call call, uint64_t value,
                const uint8_t *reg, size_t len, uint64_t number,
                uint64_t answer)
{
    uint8_t *copy = copy_of(reg, len);
    struct peer_register_answer a = lent_call(call, value, copy, len);
    bool right = a.number == number && a.value == answer;
    CHECK(what, right);
    if (!right)
        printf("  call %d: got %d value %d, want %d value %d\n", (int)call,
               (int)a.number, (int)a.value, (int)number, (int)answer);
    CHECK(what, len == 0 || memcmp(copy, reg, len) == 0);
    free(copy);
}

void day_keeps(const char *what, enum call call, uint64_t value,
               const struct day *d, uint64_t number, uint64_t answer)
{
    uint8_t reg[REGISTER];
    day_spell(d, reg);
    call_keeps(what, call, value, reg, REGISTER, number, answer);
}

void day_becomes(const char *what, enum call call, uint64_t value,
                 const struct day *d, const struct day *after)
{
    uint8_t reg[REGISTER];
    day_spell(d, reg);
    struct peer_register_answer a = lent_call(call, value, reg, REGISTER);
    CHECK(what, a.number == 0 && a.value == 0);
    CHECK(what, day_is(after, reg));
}

/* ---- reading against a register ---- */

bool same_answer(const struct peer_answer *x, const struct peer_answer *y)
{
    const struct peer_header *h = &x->header, *g = &y->header;
    return x->number == y->number && x->line == y->line && x->byte == y->byte &&
           x->rows == y->rows && x->warnings == y->warnings &&
           x->needed == y->needed && h->date == g->date &&
           h->client == g->client && h->from == g->from && h->to == g->to &&
           memcmp(h->name, g->name, sizeof h->name) == 0;
}

struct peer_answer refusal(uint64_t number, uint64_t line, uint64_t byte)
{
    struct peer_answer a = {.number = number, .line = line, .byte = byte};
    memset(a.header.name, ' ', sizeof a.header.name);
    return a;
}

/* Nothing but the number, its place, and for 16 the rows needed. */
static bool is_bare(const struct peer_answer *a)
{
    struct peer_answer bare = refusal(a->number, a->line, a->byte);
    if (a->number == 16)
        bare.needed = a->needed;
    return same_answer(a, &bare);
}

/* Holds an answer, its rows and its register against those without one. */
static void hold_against_plain(const struct reading *r,
                               const struct peer_answer *a,
                               const uint8_t *rows, bool kept)
{
    uint8_t *plain_rows = lend(r->room);
    struct peer_answer plain = peer_read(r->file, r->len, r->sheet, r->today,
                                         plain_rows + GUARD, r->room);
    if (a->number != 0)
        CHECK("registered: a refusal keeps rows and register",
              is_bare(a) && kept && untouched(rows, r->room));
    if (r->sheet != K)
        CHECK("registered: another sheet keeps the register", kept);
    if (a->number != 22 && a->number != 23)
        CHECK("registered: as without a register",
              same_answer(a, &plain) &&
                  memcmp(rows, plain_rows + GUARD, r->room) == 0);
    else
        CHECK("registered: 22 and 23 are on K, before any other fault",
              r->sheet == K && (plain.number == 0 || plain.number == 16 ||
                                plain.byte > a->byte));
    free(plain_rows);
}

struct peer_answer lent_read(const struct reading *r, uint8_t *reg,
                             size_t reg_len)
{
    uint8_t *file = copy_of(r->file, r->len), *rows = lend(r->room);
    uint8_t *exact_rows = copy_of(rows + GUARD, r->room);
    uint8_t *exact = copy_of(reg, reg_len), *room = lend_odd(reg, reg_len);
    struct peer_answer a = peer_read_registered(
        r->len > 0 ? file : NULL, r->len, r->sheet, r->today,
        r->room > 0 ? exact_rows : NULL, r->room, reg_len > 0 ? exact : NULL,
        reg_len);
    struct peer_answer b = peer_read_registered(
        file, r->len, r->sheet, r->today, rows + GUARD, r->room,
        room + GUARD + 1, reg_len);
    CHECK("registered: the same answer at any place", same_answer(&a, &b));
    CHECK("registered: the same bytes at any place",
          memcmp(exact, room + GUARD + 1, reg_len) == 0 &&
              memcmp(exact_rows, rows + GUARD, r->room) == 0);
    CHECK("registered: guards",
          odd_is_guarded(room, reg_len) && untouched(rows, GUARD) &&
              untouched(rows + GUARD + r->room, GUARD));
    CHECK("registered: the file is kept",
          r->len == 0 || memcmp(file, r->file, r->len) == 0);
    hold_against_plain(r, &a, exact_rows,
                       reg_len == 0 || memcmp(exact, reg, reg_len) == 0);
    if (reg_len > 0)
        memcpy(reg, exact, reg_len);
    free(file);
    free(rows);
    free(exact_rows);
    free(exact);
    free(room);
    return a;
}

void day_refuses(const char *what, const struct day *d, const char *file,
                 uint64_t number, uint64_t line, size_t plus)
{
    struct reading r = {file, strlen(file), K, TODAY, 16 * ROW};
    uint8_t reg[REGISTER];
    uint64_t byte = offset_of(file, r.len, line, plus);
    day_spell(d, reg);
    struct peer_answer a = lent_read(&r, reg, REGISTER);
    bool right = a.number == number && a.line == line && a.byte == byte;
    CHECK(what, right);
    if (!right)
        printf("  got %d line %d byte %d, want %d line %d byte %d\n",
               (int)a.number, (int)a.line, (int)a.byte, (int)number, (int)line,
               (int)byte);
}

void day_accepts(const char *what, const struct day *d, const char *file,
                 uint64_t rows, uint64_t warnings, const struct day *after)
{
    struct reading r = {file, strlen(file), K, TODAY, (size_t)rows * ROW + 7};
    uint8_t reg[REGISTER];
    day_spell(d, reg);
    struct peer_answer a = lent_read(&r, reg, REGISTER);
    bool right = a.number == 0 && a.rows == rows && a.warnings == warnings;
    CHECK(what, right);
    if (!right)
        printf("  got %d line %d byte %d rows %d warnings %d\n", (int)a.number,
               (int)a.line, (int)a.byte, (int)a.rows, (int)a.warnings);
    CHECK(what, day_is(after, reg));
}
