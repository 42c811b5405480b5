/*
 * The register of a day's numbers: its layout against docs/ROWS.md, and the
 * calls of abo.h that start, ask, give back and read against it, each with what
 * it leaves of the register's bytes.  C99 and C++11 alike; host/api/header.sh
 * builds it as both.
 *
 *   register_calls docs/ROWS.md
 */
#include <abo.h>
#include "page.h"
#include "small_batch.h"

enum { WORD = sizeof(uint64_t), BITS = 1024, SOME_DAY = 20180102, ROOM = 256 };

/* ---- The layout ---- */

/* Words of a register: the member that the page names, by its offset. */
#define MEMBER(member)                                                        \
    {"`" #member "`", offsetof(struct abo_register, member) / WORD, 0}

static struct {
    const char *name;
    size_t word;
    int seen;
} members[] = {MEMBER(date), MEMBER(numbers)};

/* The member of a word is what its cell names last. */
static void check_member(const char *cell, size_t word)
{
    size_t len = strlen(cell);
    for (size_t i = 0; i < COUNT_OF(members); i++) {
        size_t name = strlen(members[i].name);
        if (members[i].word != word)
            continue;
        check(len > name && strcmp(cell + len - name, members[i].name) == 0,
              cell, "is the member of that word");
        members[i].seen++;
        return;
    }
    check(0, cell, "is a word of a register");
}

/* `0`, or `1 to 16`: words follow each other; gives back the next one. */
static size_t check_words(char *cells[CELLS], size_t next)
{
    char *end;
    size_t first = strtoul(cells[0], &end, 10);
    end += strcspn(end, "0123456789");
    check(first == next, cells[0], "follows the word before");
    check_member(cells[1], first);
    return (*end == '\0' ? first : strtoul(end, NULL, 10)) + 1;
}

static void check_page(const char *path)
{
    enum rows_table table = NO_TABLE;
    char line[1024], *cells[CELLS];
    size_t next = 0;
    FILE *f = page(path);
    while (fgets(line, sizeof line, f) != NULL) {
        int count = cells_of(line, cells);
        table = table_of(table, cells, count);
        if (table == REGISTER_TABLE && strspn(cells[0], "0123456789") > 0)
            next = check_words(cells, next);
    }
    fclose(f);
    check(next * WORD == ABO_REGISTER_BYTES, path,
          "names every word of a register");
    for (size_t i = 0; i < COUNT_OF(members); i++)
        check(members[i].seen == 1, members[i].name, "stands once in the page");
}

/* ---- Answers and marks ---- */

static int is_told(struct abo_register_answer a, uint64_t number,
                   uint64_t value)
{
    return a.number == number && a.value == value;
}

/* Bit n % 64 of word n / 64. */
static int is_marked(const struct abo_register *reg, unsigned number)
{
    return (reg->numbers[number / 64] >> number % 64 & 1) != 0;
}

/* Is the register for this day, with so many marks and this one among them? */
static int holds(const struct abo_register *reg, uint64_t date, unsigned number,
                 unsigned count)
{
    unsigned marks = 0;
    for (unsigned i = 0; i < BITS; i++)
        marks += is_marked(reg, i) != 0;
    return reg->date == date && marks == count && is_marked(reg, number);
}

static struct abo_register started(uint64_t date)
{
    struct abo_register reg;
    memset(&reg, 7, sizeof reg);
    check(is_told(abo_register_start(date, (uint8_t *)&reg, sizeof reg),
                  ABO_ACCEPTED, 0),
          "a day", "is started");
    return reg;
}

static int same(const struct abo_register *one, const struct abo_register *other)
{
    return memcmp(one, other, sizeof *one) == 0;
}

/* ---- Starting a day ---- */

/* It is refused, or leaves an empty register in whatever stood there, and what
   is lent behind it as it was. */
static void check_start(void)
{
    enum { BEHIND = 9 };
    uint8_t lent[ABO_REGISTER_BYTES + BEHIND], before[sizeof lent];
    memset(lent, 7, sizeof lent);
    memcpy(before, lent, sizeof lent);
    check(is_told(abo_register_start(20180230, lent, 0), ABO_BAD_TODAY, 0),
          "starting no day", "is refused before room is asked for");
    check(is_told(abo_register_start(SOME_DAY, lent, ABO_REGISTER_BYTES - 1),
                  ABO_NO_ROOM, ABO_REGISTER_BYTES),
          "starting a day in too little room", "says the room needed");
    check(is_told(abo_register_start(SOME_DAY, NULL, 0), ABO_NO_ROOM,
                  ABO_REGISTER_BYTES),
          "starting a day in no room", "says the room needed");
    check(memcmp(lent, before, sizeof lent) == 0, "a refused start",
          "leaves what was lent");
    check(is_told(abo_register_start(SOME_DAY, lent, sizeof lent), ABO_ACCEPTED,
                  0),
          "a day", "is started in more room than it needs");
    memset(before, 0, ABO_REGISTER_BYTES);
    for (unsigned i = 0; i < WORD; i++)
        before[i] = (uint8_t)((uint64_t)SOME_DAY >> 8 * i);
    check(memcmp(lent, before, sizeof lent) == 0, "a started register",
          "has its date and nothing else, and what lies behind it stays");
}

/* ---- Questions, and registers that are none ---- */

static void check_asked(const struct abo_register *reg, uint64_t number,
                        uint64_t lowest, uint64_t count, const char *what)
{
    const uint8_t *lent = (const uint8_t *)reg;
    check(is_told(abo_register_lowest(lent, sizeof *reg), number, lowest), what,
          "has its lowest free number");
    check(is_told(abo_register_free(lent, sizeof *reg), number, count), what,
          "has its count of free numbers");
}

static void check_malformed(struct abo_register reg, const char *what)
{
    struct abo_register before = reg;
    check_asked(&reg, ABO_BAD_REGISTER, 0, 0, what);
    check(is_told(abo_register_give_back((uint8_t *)&reg, sizeof reg, 1000),
                  ABO_BAD_REGISTER, 0),
          what, "is told before the number that is given back");
    check(same(&reg, &before), what, "stays as it was");
}

static void check_questions(void)
{
    struct abo_register reg, spoilt;
    memset(&reg, 0, sizeof reg);
    check_malformed(reg, "a register of zeros");
    reg = started(SOME_DAY);
    check_asked(&reg, ABO_ACCEPTED, 0, 1000, "an empty register");
    spoilt = reg;
    spoilt.date = 20180230;
    check_malformed(spoilt, "a register for no day");
    for (unsigned bit = 1000 % 64; bit < 64; bit++) {
        spoilt = reg;
        spoilt.numbers[15] = UINT64_C(1) << bit;
        check_malformed(spoilt, "a register with a number above 999");
    }
    reg.numbers[0] = 7;
    reg.numbers[15] = UINT64_C(1) << 999 % 64;
    check_asked(&reg, ABO_ACCEPTED, 3, 996, "a register of 0, 1, 2 and 999");
    memset(reg.numbers, 0xff, sizeof reg.numbers);
    reg.numbers[15] = (UINT64_C(1) << 1000 % 64) - 1;
    check_asked(&reg, ABO_ACCEPTED, ABO_REGISTER_NUMBERS, 0, "a full register");
    check(is_told(abo_register_lowest((const uint8_t *)&reg, sizeof reg - 1),
                  ABO_BAD_REGISTER, 0) &&
              is_told(abo_register_free(NULL, 0), ABO_BAD_REGISTER, 0),
          "a register of too few bytes", "is none");
}

/* ---- Giving back ---- */

static void give_back(struct abo_register *reg, uint64_t number, uint64_t due,
                      const char *what)
{
    check(is_told(abo_register_give_back((uint8_t *)reg, sizeof *reg, number),
                  due, 0),
          what, "is given back exactly if it is marked");
}

static void check_give_back(void)
{
    struct abo_register reg = started(SOME_DAY), before;
    reg.numbers[1] = UINT64_C(1) << 5 | 1; /* 69 and 64 */
    before = reg;
    give_back(&reg, 68, ABO_NOT_TAKEN, "a number that is free");
    give_back(&reg, 1000, ABO_NOT_TAKEN, "a number above 999");
    give_back(&reg, BITS + 69, ABO_NOT_TAKEN, "a number far above 999");
    give_back(&reg, UINT64_C(1) << 63, ABO_NOT_TAKEN, "2^63");
    check(same(&reg, &before), "a refused return", "leaves the register");
    give_back(&reg, 69, ABO_ACCEPTED, "a number that is marked");
    check(holds(&reg, SOME_DAY, 64, 1), "a return", "takes that mark alone");
    give_back(&reg, 69, ABO_NOT_TAKEN, "the same number once more");
}

/* ---- Reading ---- */

static const uint8_t text[SMALL_TEXT] = {'W', 'a', 'g', 'e'};

/* The small batch as a file of K, whose number is 001. */
static size_t write_small(uint8_t *file)
{
    union abo_row rows[SMALL_ROWS];
    struct abo_header header;
    make_small_batch(rows, &header, SOME_DAY);
    struct abo_written w =
        abo_write_rows(rows, SMALL_ROWS, text, sizeof text, &header,
                       ABO_SHEET_K, SOME_DAY, file, ROOM);
    check(w.number == ABO_ACCEPTED, "the small batch", "is written");
    return (size_t)w.bytes;
}

static int same_answer(const struct abo_answer *a, const struct abo_answer *b)
{
    return a->number == b->number && a->line == b->line &&
           a->byte == b->byte && a->rows == b->rows &&
           a->warnings == b->warnings && a->needed == b->needed &&
           a->header.date == b->header.date;
}

/* The header's own function and the call give one answer and leave the same
   rows and register, which is given back. */
static struct abo_register read_against(const uint8_t *file, size_t len,
                                        uint64_t sheet, size_t count,
                                        struct abo_register reg, uint64_t due)
{
    union abo_row rows[SMALL_ROWS], other[SMALL_ROWS];
    struct abo_register with = reg;
    memset(rows, 7, sizeof rows);
    memset(other, 7, sizeof other);
    struct abo_answer a = abo_read_rows_registered(file, len, sheet, SOME_DAY,
                                                   rows, count, &reg);
    struct abo_answer o = abo_read_registered(
        file, len, sheet, SOME_DAY, (uint8_t *)other, count * ABO_ROW_BYTES,
        (uint8_t *)&with, ABO_REGISTER_BYTES);
    check(o.number == due, "abo_read_registered", "has the number that is due");
    check(same_answer(&a, &o), "abo_read_rows_registered",
          "answers as abo_read_registered does");
    check(memcmp(rows, other, sizeof rows) == 0 && same(&reg, &with),
          "abo_read_rows_registered",
          "leaves rows and register as abo_read_registered does");
    return reg;
}

/* A refusal leaves the register as it was. */
static void check_refused(const uint8_t *file, size_t len, uint64_t sheet,
                          size_t count, struct abo_register reg, uint64_t due)
{
    struct abo_register left = read_against(file, len, sheet, count, reg, due);
    check(same(&left, &reg), "a refused file", "leaves the register");
}

static void check_accepted_as_read(const uint8_t *file, size_t len)
{
    union abo_row rows[SMALL_ROWS], other[SMALL_ROWS];
    struct abo_register reg = started(SOME_DAY);
    struct abo_answer a = abo_read_rows_registered(
        file, len, ABO_SHEET_K, SOME_DAY, rows, SMALL_ROWS, &reg);
    struct abo_answer o = abo_read_rows(file, len, ABO_SHEET_K, SOME_DAY, other,
                                        SMALL_ROWS);
    check(a.number == ABO_ACCEPTED && same_answer(&a, &o) &&
              memcmp(rows, other, sizeof rows) == 0,
          "a file accepted against a register", "is read as abo_read reads it");
}

static void check_reading(void)
{
    uint8_t file[ROOM];
    size_t len = write_small(file);
    struct abo_register empty = started(SOME_DAY), used, other = empty;
    other.date++;
    used = read_against(file, len, ABO_SHEET_K, SMALL_ROWS, empty,
                        ABO_ACCEPTED);
    check(holds(&used, SOME_DAY, 1, 1), "an accepted file",
          "has its number marked, and no other");
    check_refused(file, len, ABO_SHEET_K, SMALL_ROWS, used, ABO_NUMBER_USED);
    check_refused(file, len, ABO_SHEET_K, SMALL_ROWS, other, ABO_BAD_REGISTER);
    check_refused(file, len, ABO_SHEET_K, SMALL_ROWS - 1, empty, ABO_NO_ROOM);
    check_refused(file, len, ABO_SHEET_S, SMALL_ROWS, used, ABO_BAD_PAYER_BANK);
    check_refused(file, len, 0, SMALL_ROWS, used, ABO_BAD_SHEET);
    check_accepted_as_read(file, len);
    give_back(&used, 1, ABO_ACCEPTED, "the file's number");
    check(same(&used, &empty), "a number given back",
          "is as if it had never been used");
}

/* Where the refusals stand, in lines that abo_line finds; and on other sheets
   none at all may be lent. */
static void check_places(void)
{
    uint8_t file[ROOM];
    size_t len = write_small(file);
    struct abo_register reg = started(SOME_DAY);
    struct abo_answer a = abo_read_registered(file, len, ABO_SHEET_K, SOME_DAY,
                                              NULL, 0, NULL, 0);
    check(a.number == ABO_BAD_REGISTER && a.line == 1 && a.byte == 4,
          "no register", "is refused at the header's date");
    reg.numbers[0] = 2;
    a = abo_read_registered(file, len, ABO_SHEET_K, SOME_DAY, NULL, 0,
                            (uint8_t *)&reg, sizeof reg);
    struct abo_found line = abo_line(file, len, a.line);
    check(a.number == ABO_NUMBER_USED && a.line == 2 && line.found == 1 &&
              a.byte == line.at + strlen("1 1501 "),
          "a number used that day", "is refused at the number");
    a = abo_read_registered(file, len, ABO_SHEET_C, SOME_DAY, NULL, 0, NULL, 0);
    check(a.number == ABO_NO_ROOM && a.needed == SMALL_ROWS, "another sheet",
          "wants no register");
}

int main(int argc, char **argv)
{
    if (argc != 2) {
        fprintf(stderr, "register_calls: name docs/ROWS.md.\n");
        return 2;
    }
    check_page(argv[1]);
    check_start();
    check_questions();
    check_give_back();
    check_reading();
    check_places();
    return last_line();
}
