/* Statements (request W-204), by the points of their page. */
#include "check_statements.h"
#include "../internal.h"
#include "../statement_sums.h"

#define TEN_6 UINT64_C(1000000)
#define TEN_10 UINT64_C(10000000000)
#define TEN_12 UINT64_C(1000000000000)
#define TEN_14 UINT64_C(100000000000000)

/* ---- accounts ---- */

static void rearrangement(void)
{
    /* The page's second table, which the code does without. */
    static const uint8_t internal_place[16] = {10, 11, 12, 13, 14, 15, 4, 5,
                                               6,  7,  8,  3,  9,  1,  2, 0};
    for (size_t place = 0; place < 16; place++)
        for (uint8_t digit = '0'; digit <= '9'; digit++) {
            struct sixteen one, two;
            memset(one.digit, digit == '0' ? '5' : '0', 16);
            one.digit[place] = digit;
            two = edited_of_internal(internal_of_edited(one));
            CHECK("to internal and back", memcmp(&one, &two, 16) == 0);
            two = internal_of_edited(edited_of_internal(one));
            CHECK("from internal and back", memcmp(&one, &two, 16) == 0);
            two = internal_of_edited(one);
            CHECK("a digit's place",
                  two.digit[internal_place[place]] == digit);
        }
}

/* One account both ways, in all three of its places. */
static void account(const char *internal, uint64_t prefix, uint64_t base)
{
    file_start();
    file_head(0, -1, 1, 0);
    file_move(1, '1');
    file_put(1, 3, internal);
    file_put(2, 3, internal);
    file_put(2, 19, internal);
    file_kept(internal, 2);
    CHECK(internal, row_value(1, 1) == prefix && row_value(1, 2) == base);
    CHECK(internal, row_value(2, 1) == prefix && row_value(2, 2) == base);
    CHECK(internal, row_value(2, 3) == prefix && row_value(2, 4) == base);
}

static void accounts(void)
{
    rearrangement();
    account("9010000000000019", 19, 19);
    account("7258226710500005", 500005, 2267180257);
    account("7234110730000000", 0, 1107340237);
    account("0000000000000000", 0, 0);
    account("9999999999999999", 999999, 9999999999);
    account("0000100000000000", 0, 1000000000);
    account("1000000000000000", 0, 1);
    account("0000000000100000", 100000, 0);
    account("0000000000000001", 1, 0);
}

/* ---- what is read ---- */

static void one_statement(void)
{
    static const uint64_t want[5][8] = {
        {74, 19, 19, 10000, 6649, 4001, 650, 0},
        {75, 19, 19, 500005, 2267180257, 5001, 1, 42},
        {75, 19, 19, 500005, 2267180257, 1000, 4, 42},
        {75, 19, 19, 500005, 2267180257, 700, 2, 42},
        {75, 19, 19, 500005, 2267180257, 50, 5, 42},
    };
    file_frame();
    file_kept("all four codes", 5);
    for (size_t i = 0; i < 5 * 8; i++)
        CHECK("all four codes: words",
              row_value(1 + i / 8, i % 8) == want[i / 8][i % 8]);
    CHECK("a head's kept bytes",
          memcmp(test_rows.bytes + 64,
                 "KLIENT TEST         010118001020118FIO           ",
                 49) == 0);
    CHECK("a movement's kept bytes",
          memcmp(test_rows.bytes + STATEMENT_ROW + 64,
                 "123456789012300080005580000000017020118"
                 "PLATBA ZA ENERGIE   01101020118",
                 70) == 0);
}

static void several_statements(void)
{
    file_frame();
    file_head(6649, 6649, 0, 0);
    file_head(6649, 6650, 0, 1);
    file_move(1, '2');
    file_head(-5, -5, 7, 7);
    file_move(7, '2');
    file_move(0, '4');
    file_move(7, '1');
    file_kept("several statements", 12);
    CHECK("several: kinds", row_value(6, 0) == 74 && row_value(7, 0) == 74 &&
                                row_value(8, 0) == 75 &&
                                row_value(9, 0) == 74);
    CHECK("several: below zero", row_value(9, 3) == UINT64_MAX - 4);
    file_start();
    file_head(5, 5, 0, 0);
    file_kept("no movement", 1);
    file_head(0, 0, 0, 0);
    file_kept("no movement twice", 2);
    file_start();
    file_head(5, 4, 1, 0);
    file_refused("no movement, a turnover", 52, 1, 75);
}

/* Turnovers and balances below zero and of all their digits. */
static void signs(void)
{
    file_start();
    file_head(-500, 200, -1000, -300);
    file_move(1000, '4');
    file_move(300, '5');
    file_kept("turnovers below zero", 3);
    CHECK("turnovers below zero: words",
          row_value(1, 3) == 0 - UINT64_C(500) && row_value(1, 4) == 200 &&
              row_value(1, 5) == 0 - UINT64_C(1000) &&
              row_value(1, 6) == 0 - UINT64_C(300));
    for (int side = 0; side < 2; side++)
        for (int sign = -1; sign <= 1; sign += 2) {
            int64_t all = sign * BELOW_14, old = side == 0 ? all : -all;
            const char *codes[] = {"4 1", "5 2"};
            file_start();
            file_head(old, 0, side == 0 ? all : 0, side == 1 ? all : 0);
            for (int i = 0; i < 100; i++)
                file_move(BELOW_12, codes[side][1 + sign]);
            file_move(99, codes[side][1 + sign]);
            file_kept("fourteen digits", 102);
            CHECK("fourteen digits: words",
                  row_value(1, 3) == (uint64_t)old &&
                      row_value(1, 5 + (size_t)side) == (uint64_t)all);
            file_move(1, codes[side][1 + sign]);
            file_refused("fifteen digits", 52, 1, side == 0 ? 75 : 90);
        }
    for (int sign = -1; sign <= 1; sign += 2) {
        file_start();
        file_head(sign * BELOW_14, sign * BELOW_14, 0, sign);
        file_move(1, sign < 0 ? '5' : '2');
        file_refused("a balance of fifteen digits", 53, 1, 60);
        file_put(1, 60, "00000000000000");
        file_refused("a balance without its first digit", 53, 1, 60);
    }
}

/* Minus before zero is zero; it is written with plus or 0. */
static void minus_zero(void)
{
    static const size_t places[] = {59, 74, 89, 104};
    static struct lent canonical;
    for (unsigned which = 0; which < 16; which++) {
        file_start();
        file_head(0, 0, 0, 0);
        canonical = test_file;
        for (size_t i = 0; i < 4; i++)
            if (which >> i & 1)
                file_put(1, places[i], "-");
        file_read("minus before zero", 1);
        for (size_t word = 3; word <= 6; word++)
            CHECK("minus before zero: word", row_value(1, word) == 0);
        rows_written("minus before zero", &canonical);
    }
}

/* The kept bytes of both kinds of records. */
static const struct {
    uint64_t record;
    size_t place, len;
} kept[] = {{1, 19, 26}, {1, 105, 23}, {2, 35, 13}, {2, 71, 57}};

static void kept_bytes(void)
{
    static const uint8_t some[] = {'\r', '\n', 0, 255, 0x1a, '0', '7', '4'};
    for (unsigned byte = 0; byte < 256; byte++) {
        file_frame();
        for (size_t i = 0; i < 4; i++)
            memset(test_file.bytes + (kept[i].record - 1) * RECORD +
                       kept[i].place,
                   (int)byte, kept[i].len);
        file_kept("all kept bytes alike", 5);
    }
    for (size_t i = 0; i < 4; i++)
        for (size_t at = 0; at < kept[i].len; at++) {
            file_frame();
            for (size_t k = at; k < kept[i].len; k++)
                test_file.bytes[(kept[i].record - 1) * RECORD + kept[i].place +
                                k] = some[(k - at) % sizeof some];
            file_kept("kept bytes from a place on", 5);
        }
}

/* ---- every byte of both records ---- */

/* A read field of the file in every_byte: the bytes allowed, and what another
   one of them brings about (number 0 is nothing). */
static const struct read_field {
    uint64_t record;
    size_t place, len;
    const char *allowed;
    uint64_t number, byte;
} read_fields[] = {
    {1, 3, 16, "0123456789", 0, 0},   {1, 45, 14, "0123456789", 53, 60},
    {1, 59, 1, "+-", 53, 60},         {1, 60, 14, "0123456789", 53, 60},
    {1, 74, 1, "+-", 53, 60},         {1, 75, 14, "0123456789", 52, 75},
    {1, 89, 1, "0-", 52, 75},         {1, 90, 14, "0123456789", 52, 90},
    {1, 104, 1, "0-", 52, 90},        {2, 3, 16, "0123456789", 0, 0},
    {2, 19, 16, "0123456789", 0, 0},  {2, 48, 12, "0123456789", 52, 75},
    {2, 60, 1, "1245", 52, 75},       {2, 61, 10, "0123456789", 0, 0},
};
enum { READ_FIELDS = sizeof read_fields / sizeof *read_fields };

static const struct read_field *field_at(uint64_t record, size_t place)
{
    for (size_t i = 0; i < READ_FIELDS; i++)
        if (read_fields[i].record == record && place >= read_fields[i].place &&
            place < read_fields[i].place + read_fields[i].len)
            return &read_fields[i];
    return NULL;
}

static bool is_kept(uint64_t record, size_t place)
{
    for (size_t i = 0; i < 4; i++)
        if (kept[i].record == record && place >= kept[i].place &&
            place < kept[i].place + kept[i].len)
            return true;
    return false;
}

static void want_of(uint64_t record, size_t place, uint8_t byte,
                    struct peer_statement_answer *want)
{
    const struct read_field *f = field_at(record, place);
    *want = (struct peer_statement_answer){0, 0, 0, 3, 0};
    if (is_kept(record, place))
        return;
    if (f == NULL && record == 2 && place == 2 && byte == '4')
        /* The movement is now a head, and the statement above it over. */
        *want = (struct peer_statement_answer){52, 1, 75, 0, 0};
    else if (f == NULL)
        *want = (struct peer_statement_answer){50, record,
                                               (record - 1) * RECORD, 0, 0};
    else if (byte == 0 || strchr(f->allowed, byte) == NULL)
        *want = (struct peer_statement_answer){
            51, record, (record - 1) * RECORD + f->place, 0, 0};
    else if (f->number != 0)
        *want = (struct peer_statement_answer){f->number, 1, f->byte, 0, 0};
}

/* Every byte of both records is set to every value. */
static void every_byte(void)
{
    static uint8_t rows[3 * STATEMENT_ROW];
    file_start();
    file_head(10000, 5000, 5001, 1);
    file_move(5001, '1');
    file_move(1, '2');
    for (size_t at = 0; at < 2 * RECORD; at++) {
        uint8_t old = test_file.bytes[at];
        bool right = true;
        for (unsigned byte = 0; byte < 256; byte++) {
            struct peer_statement_answer want, a;
            want_of(1 + at / RECORD, at % RECORD, (uint8_t)byte, &want);
            if (byte == old)
                want = (struct peer_statement_answer){0, 0, 0, 3, 0};
            test_file.bytes[at] = (uint8_t)byte;
            a = peer_statement_read(test_file.bytes, test_file.len, rows,
                                    sizeof rows);
            right = right && memcmp(&a, &want, sizeof a) == 0;
        }
        test_file.bytes[at] = old;
        CHECK("every byte of both records", right);
        if (!right)
            printf("  at byte %d\n", (int)at);
    }
}

/* Each field and sign of both records with all that is right of it wrong. */
static void left_to_right(void)
{
    for (size_t first = 0; first < READ_FIELDS; first++) {
        const struct read_field *f = &read_fields[first];
        file_frame();
        for (size_t i = first; i < READ_FIELDS; i++) {
            uint8_t *at = test_file.bytes +
                          (read_fields[i].record - 1) * RECORD +
                          read_fields[i].place;
            at[read_fields[i].len - 1] = ' ';
        }
        file_refused("51 from left to right", 51, f->record,
                     (f->record - 1) * RECORD + f->place);
    }
}

/* ---- refusals of reading ---- */

static void wrong_records(void)
{
    static const char *const types[] = {"076", "078", "079", "073", "174",
                                        "7 4", " 74", "74 ", "UHL", "175"};
    file_start();
    file_refused("50: an empty file", 50, 1, 0);
    struct peer_statement_answer a = peer_statement_read(NULL, 0, NULL, 0);
    CHECK("50: nothing lent", a.number == 50 && a.line == 1 && a.byte == 0);
    file_frame();
    for (size_t len = 1; len < 5 * RECORD; len++) {
        test_file.len = len;
        if (len % RECORD != 0)
            file_refused("50: a record cut short", 50, 1 + len / RECORD,
                         len / RECORD * RECORD);
    }
    for (uint64_t record = 1; record <= 5; record++)
        for (size_t i = 0; i < sizeof types / sizeof *types; i++) {
            file_frame();
            file_put(record, 0, types[i]);
            file_refused("50: another type", 50, record,
                         (record - 1) * RECORD);
        }
    file_start();
    file_move(1, '1');
    file_refused("50: a movement first", 50, 1, 0);
    file_head(1, 0, 1, 0);
    file_refused("50: a movement before its head", 50, 1, 0);
    file_frame();
    memcpy(test_file.bytes + 5 * RECORD, "\x1a", 1);
    test_file.len += 1;
    file_refused("50: 1A behind the end", 50, 6, 5 * RECORD);
    memcpy(test_file.bytes + 5 * RECORD, "\r\n", 2);
    test_file.len += 1;
    file_refused("50: an empty line behind the end", 50, 6, 5 * RECORD);
}

static void wrong_ends(void)
{
    static const char *const ends[] = {"\n\r", "\r\r", "\n\n", "  ", "\r "};
    for (uint64_t record = 1; record <= 5; record++)
        for (size_t i = 0; i < 5; i++) {
            file_frame();
            file_put(record, 128, ends[i]);
            file_refused("50: no CR LF", 50, record, (record - 1) * RECORD);
        }
    file_frame();
    test_file.len -= 2;
    file_refused("50: no CR LF at the end", 50, 5, 4 * RECORD);
    /* LF alone: the next record's first byte stands where it should be. */
    file_frame();
    memmove(test_file.bytes + 128, test_file.bytes + 129, 4 * RECORD + 1);
    test_file.len--;
    file_refused("50: LF alone", 50, 1, 0);
}

static void wrong_sums(void)
{
    file_start();
    file_head(10000, 6649, 4002, 651);
    file_move(5001, '1');
    file_move(1000, '4');
    file_move(700, '2');
    file_move(50, '5');
    file_refused("52: debit before credit", 52, 1, 75);
    file_put(1, 75, "00000000004001");
    file_refused("52: credit", 52, 1, 90);
    file_put(1, 60, "00000000000000");
    file_refused("52: credit before 53", 52, 1, 90);
    file_put(1, 90, "00000000000650");
    file_refused("53", 53, 1, 60);
    file_put(1, 60, "00000000006649");
    file_kept("52, 53: right again", 5);
    file_put(1, 74, "-");
    file_refused("53: the new balance's sign", 53, 1, 60);
    file_frame();
    file_head(1, 1, 0, 0);
    file_head(1, 2, 3, 4);
    file_move(3, '1');
    file_move(5, '2');
    file_refused("52: a later statement", 52, 7, 6 * RECORD + 90);
    file_put(7, 90, "00000000000005");
    file_refused("53: a later statement", 53, 7, 6 * RECORD + 60);
    file_put(7, 60, "00000000000003");
    file_kept("52, 53: a later statement is right", 9);
    file_put(1, 75, "00000000004002");
    file_put(7, 75, "00000000000004");
    file_refused("52: the first statement first", 52, 1, 75);
}

static void order(void)
{
    file_frame();
    file_put(1, 75, "00000000004002");
    file_head(0, 0, 0, 0);
    file_put(6, 3, "x");
    file_refused("52 before the next head's 51", 52, 1, 75);
    file_put(6, 128, " ");
    file_refused("50 of the next record before 52", 50, 6, 5 * RECORD);
    file_put(6, 128, "\r");
    file_put(6, 0, "079");
    file_refused("50 of the next type before 52", 50, 6, 5 * RECORD);
    test_file.len = 5 * RECORD + 3;
    file_put(6, 0, "074");
    file_refused("50 of a cut head before 52", 50, 6, 5 * RECORD);
    file_put(5, 61, "x");
    file_refused("51 before the next record's 50", 51, 5, 4 * RECORD + 61);
    file_put(5, 0, "079");
    file_refused("50 before 51", 50, 5, 4 * RECORD);
    file_put(1, 104, "x");
    file_refused("an earlier record's 51 first", 51, 1, 104);
    file_frame();
    file_put(1, 60, "00000000000000");
    file_head(0, 0, 1, 0);
    file_refused("53 before the next statement's 52", 53, 1, 60);
    file_put(6, 59, "x");
    file_refused("53 before the next head's 51", 53, 1, 60);
    test_file.len--;
    file_refused("50 of the next record before 53", 50, 6, 5 * RECORD);
    file_frame();
    file_put(1, 75, "00000000004002");
    file_put(5, 19, " ");
    file_refused("51 of a movement before 52", 51, 5, 4 * RECORD + 19);
}

/* ---- writing ---- */

/* The frame's rows, from reading it. */
static void rows_frame(void)
{
    file_frame();
    file_read("the frame's rows", 5);
}

static void wrong_rows(void)
{
    static const uint64_t kinds[] = {0, 1, 2, 3, 73, 76, 78, 79, UINT64_MAX,
                                     74 + (UINT64_C(1) << 32),
                                     75 + (UINT64_C(1) << 63)};
    struct peer_written w = peer_statement_write(NULL, 0, NULL, 0);
    CHECK("50: no rows", w.number == 50 && w.row == 1 && w.field == 0 &&
                             w.bytes == 0);
    rows_frame();
    for (size_t len = 0; len < 5 * STATEMENT_ROW; len++) {
        test_rows.len = len;
        if (len == 0 || len % STATEMENT_ROW != 0)
            rows_refused("50: a row cut short", 50, 1 + len / STATEMENT_ROW, 0);
    }
    for (uint64_t row = 1; row <= 5; row++)
        for (size_t i = 0; i < sizeof kinds / sizeof *kinds; i++) {
            rows_frame();
            row_set(row, 0, kinds[i]);
            rows_refused("50: another kind", 50, row, 0);
        }
    rows_frame();
    row_set(1, 0, 75);
    rows_refused("50: a movement first", 50, 1, 0);
}

/* A word that its field can hold, whatever the sums say, and one that it
   cannot. */
static void limit(uint64_t row, size_t word, uint64_t most, uint64_t first)
{
    rows_frame();
    row_set(row, word, first);
    rows_refused("51: passes its digits", 51, row, word);
    rows_frame();
    row_set(row, word, most);
    struct peer_written w = peer_statement_write(
        test_rows.bytes, test_rows.len, test_file.bytes, test_file.len);
    CHECK("all its digits", w.number != 50 && w.number != 51);
}

static void wrong_fields(void)
{
    static const uint64_t wild[] = {UINT64_MAX, UINT64_C(1) << 63,
                                    (UINT64_C(1) << 63) - 1,
                                    (UINT64_C(1) << 63) + 1};
    for (uint64_t row = 1; row <= 5; row++) {
        bool head = row == 1;
        limit(row, 1, TEN_6 - 1, TEN_6);
        limit(row, 2, TEN_10 - 1, TEN_10);
        for (size_t word = 3; head && word <= 6; word++) {
            limit(row, word, TEN_14 - 1, TEN_14);
            limit(row, word, 0 - (TEN_14 - 1), 0 - TEN_14);
            limit(row, word, UINT64_MAX, UINT64_C(1) << 63);
            limit(row, word, 0, (UINT64_C(1) << 63) - 1);
            limit(row, word, 1, (UINT64_C(1) << 63) + 1);
        }
        if (head)
            continue;
        limit(row, 3, TEN_6 - 1, TEN_6);
        limit(row, 4, TEN_10 - 1, TEN_10);
        limit(row, 5, TEN_12 - 1, TEN_12);
        limit(row, 6, 1, 0);
        limit(row, 6, 2, 3);
        limit(row, 6, 4, 6);
        limit(row, 6, 5, '1');
        limit(row, 7, TEN_10 - 1, TEN_10);
        for (size_t word = 1; word <= 7; word++)
            for (size_t i = 0; i < 4; i++)
                limit(row, word, 1, wild[i]);
        limit(row, 6, 1, 10);
        limit(row, 6, 1, 1 + (UINT64_C(1) << 32));
    }
    for (uint64_t row = 1; row <= 2; row++)
        for (size_t first = 1; first <= (row == 1 ? 6 : 7); first++) {
            rows_frame();
            for (size_t word = first; word <= 7; word++)
                row_set(row, word, UINT64_C(1) << 63);
            rows_refused("51: in row order", 51, row, first);
        }
}

static void wrong_sums_of_rows(void)
{
    rows_frame();
    row_set(1, 4, 0);
    row_set(1, 5, 4002);
    row_set(1, 6, 0 - UINT64_C(650));
    rows_refused("52: debit before credit, rows", 52, 1, 5);
    row_set(1, 5, 4001);
    rows_refused("52: credit before 53, rows", 52, 1, 6);
    row_set(1, 6, 650);
    rows_refused("53, rows", 53, 1, 4);
    row_set(1, 4, 6649);
    rows_written("52, 53: right again, rows", &test_file);
    file_head(1, 2, 3, 4);
    file_move(3, '1');
    file_move(4, '2');
    file_kept("a second statement", 8);
    row_set(6, 6, 3);
    rows_refused("52: a later row", 52, 6, 6);
    row_set(6, 6, 4);
    row_set(6, 3, 0);
    rows_refused("53: a later row", 53, 6, 4);
    row_set(1, 5, 4002);
    rows_refused("52: the first row first", 52, 1, 5);
    row_set(6, 1, TEN_6);
    rows_refused("52 before the next row's 51", 52, 1, 5);
    row_set(6, 0, 76);
    rows_refused("50 of the next row before 52", 50, 6, 0);
    row_set(6, 0, 74);
    test_rows.len = 5 * STATEMENT_ROW + 135;
    rows_refused("50 of a cut row before 52", 50, 6, 0);
    row_set(5, 7, TEN_10);
    rows_refused("51 before the next row's 50", 51, 5, 7);
    row_set(5, 0, 0);
    rows_refused("50 before 51, rows", 50, 5, 0);
}

/* Sums that agree in 64 bits alone; the rows never get so far, as an amount is
   judged by its digits first. */
static void extremes(void)
{
    rows_frame();
    row_set(1, 4, 11651);
    row_set(1, 5, 0 - UINT64_C(1001));
    row_set(2, 5, UINT64_MAX);
    rows_refused("an amount of all ones", 51, 2, 5);
    rows_frame();
    row_set(1, 3, UINT64_C(1) << 63);
    row_set(1, 4, UINT64_C(1) << 63);
    rows_refused("the least balances", 51, 1, 3);
    row_set(1, 3, 10000);
    rows_refused("the least new balance", 51, 1, 4);
}

static void unused_words(void)
{
    rows_frame();
    row_set(1, 7, UINT64_MAX);
    memset(test_rows.bytes + 113, 0xff, STATEMENT_ROW - 113);
    for (size_t row = 1; row < 5; row++)
        memset(test_rows.bytes + row * STATEMENT_ROW + 134, 0xff, 2);
    rows_written("unused words are not looked at", &test_file);
}

/* ---- sums ---- */

static struct exact exact_of(int64_t high, uint64_t low)
{
    return (struct exact){(uint64_t)high, low};
}

static bool same_sum(struct exact x, struct exact y)
{
    return x.high == y.high && x.low == y.low;
}

static void exact_sums(void)
{
    struct exact sum = {0, 0};
    CHECK("sums: zero", exact_is(sum, 0));
    exact_subtract(&sum, 1);
    CHECK("sums: below zero", exact_is(sum, UINT64_MAX) && !exact_is(sum, 0));
    exact_add(&sum, 1);
    exact_add(&sum, UINT64_MAX);
    CHECK("sums: 2^64 - 1 is not -1", !exact_is(sum, UINT64_MAX));
    exact_add(&sum, 1);
    CHECK("sums: 2^64 is not 0", same_sum(sum, exact_of(1, 0)) &&
                                     !exact_is(sum, 0));
    exact_add(&sum, 5001);
    CHECK("sums: 2^64 + 5001", !exact_is(sum, 5001));
    exact_subtract(&sum, UINT64_MAX);
    exact_subtract(&sum, 1);
    CHECK("sums: brought back", exact_is(sum, 5001));
    sum = exact_of(0, UINT64_C(1) << 63);
    CHECK("sums: 2^63 is not -2^63", !exact_is(sum, UINT64_C(1) << 63));
    sum = exact_of(-1, UINT64_C(1) << 63);
    CHECK("sums: -2^63", exact_is(sum, UINT64_C(1) << 63));
    exact_subtract(&sum, UINT64_C(1) << 63);
    exact_subtract(&sum, 1);
    CHECK("sums: -2^64 - 1 is not -1",
          same_sum(sum, exact_of(-2, UINT64_MAX)) &&
              !exact_is(sum, UINT64_MAX));
}

/* The last movement before 64 bits are passed and the one after it, without the
   file of 2.4 GB that would hold those above. */
static void long_statement(void)
{
    uint64_t head[8] = {74, 19, 19, 0, 0, 0, 0, 0};
    uint64_t move[8] = {75, 19, 19, 0, 0, BELOW_12, 0, 0};
    for (uint64_t code = CODE_DEBIT; code <= CODE_CREDIT; code++) {
        struct statement s = {0};
        struct exact *sum = code == CODE_DEBIT ? &s.debit : &s.credit;
        uint64_t fault = code == CODE_DEBIT ? HEAD_DEBIT : HEAD_CREDIT;
        statement_take(&s, 3, head);
        CHECK("a long statement: its head", s.head == 3);
        sum->low = UINT64_C(18446744) * BELOW_12;
        move[6] = code;
        statement_take(&s, 18446748, move);
        CHECK("a long statement: past 64 bits",
              same_sum(*sum, exact_of(1, UINT64_C(18446745) * BELOW_12)));
        CHECK("a long statement: 52", statement_fault(&s) == fault);
        s.words[fault] = sum->low;
        CHECK("a long statement: not the wrapped sum",
              statement_fault(&s) == fault);
        s.words[fault] = 0;
        move[6] = code + 3;
        statement_take(&s, 18446749, move);
        CHECK("a long statement: reversed by one",
              same_sum(*sum, exact_of(0, UINT64_C(18446744) * BELOW_12)));
        sum->low = 0;
        statement_take(&s, 18446750, move);
        CHECK("a long statement: below zero",
              exact_is(*sum, 0 - BELOW_12) && s.head == 3);
        move[6] = code;
        statement_take(&s, 18446751, move);
        CHECK("a long statement: zero again", statement_fault(&s) == 0);
    }
}

void test_statements(void)
{
    accounts();
    one_statement();
    several_statements();
    signs();
    minus_zero();
    kept_bytes();
    every_byte();
    left_to_right();
    wrong_records();
    wrong_ends();
    wrong_sums();
    order();
    wrong_rows();
    wrong_fields();
    wrong_sums_of_rows();
    extremes();
    unused_words();
    exact_sums();
    long_statement();
}
