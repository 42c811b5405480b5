/* The four calls of a day's register (request W-207), by the numbers of their
   readings.  Reading against a register is in test_registered.c. */
#include "check_register.h"

/* A day with every number marked. */
static void fill_day(struct day *d, uint64_t date)
{
    day_start(d, date);
    for (size_t n = 0; n < NUMBERS; n++)
        d->marked[n] = true;
}

/* ---- 1: layout ---- */

/* One bit in the whole register, and that at the byte the readings name. */
static bool has_only(const uint8_t *reg, size_t n)
{
    for (size_t i = 8; i < REGISTER; i++)
        if (reg[i] != (i == 8 + n / 8 ? 1 << n % 8 : 0))
            return false;
    return true;
}

static void one_number_1(size_t n)
{
    struct day d, empty;
    uint8_t reg[REGISTER];
    day_start(&empty, 20240229);
    d = empty;
    d.marked[n] = true;
    day_spell(&d, reg);
    CHECK("1: bit n % 64 of its word is bit n % 8 of its byte",
          has_only(reg, n));
    day_keeps("1: one is taken", FREE, 0, &d, 0, 999);
    day_keeps("1: one is taken", LOWEST, 0, &d, 0, n == 0 ? 1 : 0);
    day_becomes("1: the one is given back", GIVE_BACK, n, &d, &empty);
    day_keeps("14: its neighbour is not marked", GIVE_BACK,
              n == 999 ? 998 : n + 1, &d, 24, 0);
}

/* All others, and all below. */
static void other_numbers_1(size_t n)
{
    struct day full, d;
    fill_day(&full, 20240229);
    d = full;
    d.marked[n] = false;
    day_keeps("1: one is free", FREE, 0, &d, 0, 1);
    day_keeps("1: one is free", LOWEST, 0, &d, 0, n);
    day_keeps("14: the free one is not marked", GIVE_BACK, n, &d, 24, 0);
    day_becomes("16: one of all is given back", GIVE_BACK, n, &full, &d);
    for (size_t i = n; i < NUMBERS; i++)
        d.marked[i] = false;
    day_keeps("1: all from here on are free", LOWEST, 0, &d, 0, n);
    day_keeps("1: all from here on are free", FREE, 0, &d, 0, NUMBERS - n);
}

/* The peer's own functions at each place of a larger room. */
static void alignment_1(void)
{
    static uint8_t room[16 + REGISTER];
    for (size_t off = 0; off < 16; off++) {
        uint8_t *reg = room + off;
        struct day d;
        memset(room, 0xff, sizeof room);
        CHECK("1: started at any place",
              peer_register_start(TODAY, reg, REGISTER).number == 0);
        day_start(&d, TODAY);
        CHECK("1: laid out at any place", day_is(&d, reg));
        reg[8] = 0x0f;
        CHECK("1: asked at any place",
              peer_register_lowest(reg, REGISTER).value == 4 &&
                  peer_register_free(reg, REGISTER).value == 996);
        CHECK("1: given back at any place",
              peer_register_give_back(reg, REGISTER, 2).number == 0 &&
                  reg[8] == 0x0b);
    }
}

#if defined(__x86_64__)
/* A C host's own struct is lent as it lies. */
static void as_it_lies_1(void)
{
    struct {
        uint64_t date, numbers[16];
    } reg;
    memset(&reg, 0xff, sizeof reg);
    CHECK("1: a struct has the size", sizeof reg == REGISTER);
    struct peer_register_answer a =
        peer_register_start(20991231, (uint8_t *)&reg, sizeof reg);
    CHECK("1: a struct is started", a.number == 0 && a.value == 0 &&
                                        reg.date == 20991231);
    for (size_t i = 0; i < 16; i++)
        CHECK("1: a struct is empty", reg.numbers[i] == 0);
    reg.numbers[0] = UINT64_MAX;
    reg.numbers[1] = 0x17;
    reg.numbers[15] = UINT64_C(1) << 39;
    a = peer_register_lowest((uint8_t *)&reg, sizeof reg);
    CHECK("1: a struct's lowest", a.number == 0 && a.value == 67);
    a = peer_register_free((uint8_t *)&reg, sizeof reg);
    CHECK("1: a struct's free ones", a.number == 0 && a.value == 931);
    a = peer_register_give_back((uint8_t *)&reg, sizeof reg, 999);
    CHECK("1: a struct's last number", a.number == 0 && reg.numbers[15] == 0);
    reg.numbers[15] = UINT64_C(1) << 40;
    a = peer_register_free((uint8_t *)&reg, sizeof reg);
    CHECK("1: a struct's bit of 1,000", a.number == 23);
}
#endif

/* ---- 2 and 3: malformed, and longer ---- */

/* The two questions and giving back test first for this.  Starting does not
   look at what stands there. */
static void is_malformed(const char *what, const uint8_t *reg, size_t len)
{
    static const uint64_t numbers[] = {0,    7,    999,  1000,
                                       1001, 1023, 1024, UINT64_MAX};
    call_keeps(what, LOWEST, 0, reg, len, 23, 0);
    call_keeps(what, FREE, 0, reg, len, 23, 0);
    for (size_t i = 0; i < sizeof numbers / sizeof *numbers; i++)
        call_keeps(what, GIVE_BACK, numbers[i], reg, len, 23, 0);
    if (len < REGISTER)
        return;
    struct day d;
    uint8_t *copy = copy_of(reg, len);
    struct peer_register_answer a = lent_call(START, 20000101, copy, len);
    day_start(&d, 20000101);
    CHECK("2: started where a malformed one stood",
          a.number == 0 && a.value == 0 && day_is(&d, copy));
    free(copy);
}

static const uint64_t unreal[] = {
    0, 1, 101, 180101, 10118, 2018010, 201801010, 19991231, 19990101, 20000001,
    20000100, 20001301, 20000132, 20000230, 20010229, 20180229, 20180431,
    20180631, 20180931, 20181131, 20991232, 20991301, 21000101, 21000228,
    20180101 + (UINT64_C(1) << 32), UINT64_C(20180101) << 32,
    UINT64_C(1) << 63, (UINT64_C(1) << 63) + 20180101, UINT64_MAX};
static const uint64_t real[] = {20000101, 20000131, 20000229, 20001231,
                                20180101, 20180228, 20240229, 20240430,
                                20960229, 20991231};

static void dates_2(void)
{
    struct day d;
    uint8_t reg[REGISTER];
    for (size_t i = 0; i < sizeof unreal / sizeof *unreal; i++) {
        day_start(&d, unreal[i]);
        d.marked[7] = true;
        day_spell(&d, reg);
        is_malformed("2: a date that is no day", reg, REGISTER);
    }
    for (size_t i = 0; i < sizeof real / sizeof *real; i++) {
        struct day less;
        day_start(&less, real[i]);
        d = less;
        d.marked[0] = true;
        day_keeps("2: a date that is a day", LOWEST, 0, &d, 0, 1);
        day_keeps("2: a date that is a day", FREE, 0, &d, 0, 999);
        day_becomes("2: a date that is a day", GIVE_BACK, 0, &d, &less);
    }
}

static void spare_bits_2(void)
{
    struct day d;
    uint8_t reg[REGISTER];
    for (size_t n = NUMBERS; n < BITS; n++) {
        day_start(&d, TODAY);
        d.marked[n] = true;
        day_spell(&d, reg);
        is_malformed("2: one of the 24 bits", reg, REGISTER);
        fill_day(&d, TODAY);
        d.marked[n] = true;
        day_spell(&d, reg);
        is_malformed("2: one of the 24 bits, all marked", reg, REGISTER);
    }
    memset(reg + 8, 0xff, REGISTER - 8);
    is_malformed("2: all of the 24 bits", reg, REGISTER);
    memset(reg + 8, 0, REGISTER - 8);
    memset(reg + 133, 0xff, 3);
    is_malformed("2: all of the 24 bits, none marked", reg, REGISTER);
    memset(reg, 0, REGISTER);
    is_malformed("2: zero bytes, never started", reg, REGISTER);
    memset(reg, 0xff, REGISTER);
    is_malformed("2: all bits", reg, REGISTER);
}

/* What lies behind 136 bytes is not looked at, so any byte may stand there. */
static void every_length_2_3(uint8_t behind)
{
    uint8_t reg[140], was[140];
    struct day d, less;
    for (size_t len = 0; len <= sizeof reg; len++) {
        day_start(&d, 20991231);
        d.marked[0] = d.marked[1] = d.marked[3] = d.marked[999] = true;
        less = d;
        less.marked[999] = false;
        memset(reg, behind, sizeof reg);
        day_spell(&d, reg);
        memcpy(was, reg, sizeof reg);
        if (len < REGISTER) {
            is_malformed("2: fewer than 136 bytes", reg, len);
            call_keeps("14: no room to start", START, TODAY, reg, len, 16, 136);
            continue;
        }
        call_keeps("3: lowest", LOWEST, 0, reg, len, 0, 2);
        call_keeps("3: free", FREE, 0, reg, len, 0, 996);
        call_keeps("3: not marked", GIVE_BACK, 2, reg, len, 24, 0);
        call_keeps("3: above 999", GIVE_BACK, 1000, reg, len, 24, 0);
        struct peer_register_answer a = lent_call(GIVE_BACK, 999, reg, len);
        CHECK("3: given back", a.number == 0 && a.value == 0);
        CHECK("3: given back", day_is(&less, reg));
        CHECK("4: later bytes stay",
              memcmp(reg + REGISTER, was + REGISTER, 4) == 0);
        a = lent_call(START, TODAY, reg, len);
        day_start(&d, TODAY);
        CHECK("3: started", a.number == 0 && a.value == 0 && day_is(&d, reg));
        CHECK("4: later bytes stay",
              memcmp(reg + REGISTER, was + REGISTER, 4) == 0);
        call_keeps("3: started, lowest", LOWEST, 0, reg, len, 0, 0);
        call_keeps("3: started, free", FREE, 0, reg, len, 0, 1000);
    }
}

/* A spare bit in front of the 136th byte's end counts, one behind it not. */
static void longer_3(void)
{
    uint8_t reg[200];
    struct day d;
    day_start(&d, TODAY);
    memset(reg, 0xff, sizeof reg);
    day_spell(&d, reg);
    call_keeps("3: 200 bytes", FREE, 0, reg, sizeof reg, 0, 1000);
    reg[135] = 0x80;
    is_malformed("3: 200 bytes, the last of the 24 bits", reg, sizeof reg);
}

/* ---- 14: starting a day ---- */

/* All that could be taken for a day of the century or its neighbours. */
static void calendar_14(void)
{
    uint8_t reg[REGISTER], was[REGISTER];
    unsigned days = 0;
    memset(was, 0x3c, sizeof was);
    for (uint64_t year = 1999; year <= 2100; year++) {
        bool right = true;
        for (uint64_t i = 0; i < 14 * 33; i++) {
            uint64_t date = year * 10000 + i / 33 * 100 + i % 33;
            struct day d;
            memcpy(reg, was, sizeof reg);
            struct peer_register_answer a =
                peer_register_start(date, reg, sizeof reg);
            bool is_day = is_a_day(date);
            days += is_day;
            day_start(&d, date);
            right = right && a.value == 0 && a.number == (is_day ? 0 : 2) &&
                    (is_day ? day_is(&d, reg)
                            : memcmp(reg, was, sizeof reg) == 0);
        }
        CHECK("14: a day of this year is started, all else is 2", right);
    }
    CHECK("14: so many days", days == 36525);
}

static void start_14(void)
{
    uint8_t reg[140];
    struct day d, empty;
    memset(reg, 0x55, sizeof reg);
    for (size_t i = 0; i < sizeof unreal / sizeof *unreal; i++)
        for (size_t len = 0; len <= sizeof reg; len += len < 130 ? 13 : 1)
            call_keeps("14: 2, before 16 too", START, unreal[i], reg, len, 2,
                       0);
    for (size_t i = 0; i < sizeof real / sizeof *real; i++) {
        call_keeps("14: 16", START, real[i], reg, 135, 16, 136);
        call_keeps("14: 16 with no bytes", START, real[i], reg, 0, 16, 136);
        fill_day(&d, real[i]);
        day_start(&empty, real[i]);
        day_becomes("16: the same day again", START, real[i], &d, &empty);
        d.date = TODAY;
        day_becomes("14: a new day starts empty", START, real[i], &d, &empty);
    }
}

/* ---- 14 to 16: giving back and asking ---- */

/* A number is held against 999 before it is used as a place: those whose low
   bits are a marked number are 24 too. */
static void give_back_14(void)
{
    static const uint64_t above[] = {
        1000, 1001, 1005, 1023, 1024, 1029, 1087, 1088, 2048, 8192 + 5, 65535,
        65536, 65536 + 5, UINT64_C(1) << 32, (UINT64_C(1) << 32) + 5,
        UINT64_C(1) << 61, UINT64_C(1) << 63, (UINT64_C(1) << 63) + 5,
        (UINT64_C(1) << 63) + 999, UINT64_MAX - 7, UINT64_MAX};
    struct day full, less;
    fill_day(&full, TODAY);
    for (size_t i = 0; i < sizeof above / sizeof *above; i++) {
        day_keeps("14: above 999", GIVE_BACK, above[i], &full, 24, 0);
        day_start(&less, TODAY);
        day_keeps("14: above 999, none marked", GIVE_BACK, above[i], &less, 24,
                  0);
    }
    less = full;
    less.marked[999] = false;
    day_becomes("14: 999", GIVE_BACK, 999, &full, &less);
    day_keeps("14: 999 is not marked", GIVE_BACK, 999, &less, 24, 0);
    less = full;
    less.marked[0] = false;
    day_becomes("14: 0", GIVE_BACK, 0, &full, &less);
    day_keeps("14: 0 is not marked", GIVE_BACK, 0, &less, 24, 0);
}

/* call_keeps wants every byte kept, so asking again meets the same register. */
static void asking_15(void)
{
    struct day d;
    fill_day(&d, TODAY);
    for (int times = 0; times < 3; times++) {
        day_keeps("15: none is free", LOWEST, 0, &d, 0, 1000);
        day_keeps("15: none is free", FREE, 0, &d, 0, 0);
    }
    day_start(&d, TODAY);
    for (int times = 0; times < 3; times++) {
        day_keeps("15: all are free", LOWEST, 0, &d, 0, 0);
        day_keeps("15: all are free", FREE, 0, &d, 0, 1000);
    }
}

static void given_back_16(void)
{
    static const size_t back[] = {640, 63, 64, 127, 999, 8, 7, 5};
    uint8_t reg[REGISTER];
    struct day d;
    uint64_t lowest = 1000, left = 0;
    fill_day(&d, TODAY);
    day_spell(&d, reg);
    for (size_t i = 0; i < sizeof back / sizeof *back; i++) {
        struct peer_register_answer a =
            lent_call(GIVE_BACK, back[i], reg, REGISTER);
        d.marked[back[i]] = false;
        lowest = back[i] < lowest ? back[i] : lowest;
        left++;
        CHECK("16: given back", a.number == 0 && a.value == 0);
        CHECK("16: its mark alone is gone", day_is(&d, reg));
        call_keeps("16: the lowest again if it is", LOWEST, 0, reg, REGISTER, 0,
                   lowest);
        call_keeps("16: one more is free", FREE, 0, reg, REGISTER, 0, left);
        call_keeps("16: not a second time", GIVE_BACK, back[i], reg, REGISTER,
                   24, 0);
    }
    struct peer_register_answer a = lent_call(START, TODAY, reg, REGISTER);
    day_start(&d, TODAY);
    CHECK("16: the same date again empties it",
          a.number == 0 && a.value == 0 && day_is(&d, reg));
}

/* Any marks: the questions against counting by hand. */
static void random_marks(void)
{
    for (int i = 0; i < 1500; i++) {
        struct day d, less;
        uint64_t dense = 1 + below(16);
        day_start(&d, real[below(sizeof real / sizeof *real)]);
        for (size_t n = 0; n < NUMBERS; n++)
            d.marked[n] = below(16) < dense;
        if (one_in(3))
            memset(d.marked, true, (size_t)below(NUMBERS + 1));
        day_keeps("random: lowest", LOWEST, 0, &d, 0, day_lowest(&d));
        day_keeps("random: free", FREE, 0, &d, 0, day_free(&d));
        size_t n = (size_t)below(NUMBERS);
        less = d;
        less.marked[n] = false;
        if (d.marked[n])
            day_becomes("random: given back", GIVE_BACK, n, &d, &less);
        else
            day_keeps("random: not marked", GIVE_BACK, n, &d, 24, 0);
    }
}

void test_register(void)
{
    for (size_t n = 0; n < NUMBERS; n++) {
        one_number_1(n);
        other_numbers_1(n);
    }
    alignment_1();
#if defined(__x86_64__)
    as_it_lies_1();
#endif
    dates_2();
    spare_bits_2();
    every_length_2_3(0x00);
    every_length_2_3(0xa5);
    every_length_2_3(0xff);
    longer_3();
    calendar_14();
    start_14();
    give_back_14();
    asking_15();
    given_back_16();
    random_marks();
}
