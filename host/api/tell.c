/*
 * The sentences of include/abo_tell.c, and abo_say.c's words in Czech: every
 * field and cause of the header has its name and a text in each language, and
 * nothing else has; what is said in one language is said in the other, in other
 * words and with the same numbers.  Files spoilt byte by byte on every sheet:
 * what is told of each has no gap, quotes and allows what abo_explain does, and
 * names field and cause; so does what is told of files that are refused for a
 * register.  Each field that abo_write refuses is told with what may stand
 * there.  C99 and C++11 alike; host/api/header.sh builds it as both, over
 * abo_say.c and abo_tell.c as C.
 *
 *   tell include/abo.h
 */
#include <abo_tell.h>

#include "page.h"

enum { LANGUAGES = 2, SHEETS = ABO_SHEET_P, TODAY = 20180101 };
enum { MOST_KNOWN = 64, PAST_ALL = 1200, ROOM = 512 };

/* What no field, cause, row, sheet or language is. */
static const uint64_t odd[] = {60, 1000, 1005, UINT32_MAX, UINT64_MAX};

/* A text that goes into a sentence, in either language. */
static int is_clause(const char *text)
{
    size_t len = text == NULL ? 0 : strlen(text);
    return len > 0 && !(text[0] >= 'A' && text[0] <= 'Z') && text[0] != ' ' &&
           text[len - 1] != '.' && text[len - 1] != ' ' &&
           strpbrk(text, "\n{}") == NULL;
}

static int has_letters(const char *text)
{
    for (; *text != '\0'; text++)
        if ((*text >= 'a' && *text <= 'z') || (*text >= 'A' && *text <= 'Z'))
            return 1;
    return 0;
}

/* Goes to the next digits, and gives back how many there are. */
static size_t next_digits(const char **text)
{
    static const char digits[] = "0123456789";
    *text += strcspn(*text, digits);
    return strspn(*text, digits);
}

/* Are there the same numbers, in the same order? */
static int same_digits(const char *one, const char *other)
{
    size_t len;
    while ((len = next_digits(&one)) > 0 && next_digits(&other) == len &&
           memcmp(one, other, len) == 0) {
        one += len;
        other += len;
    }
    return len == 0 && next_digits(&other) == 0;
}

/* Both languages have a text, or neither has; not the same one, but with the
   same numbers. */
static void check_both(const char *english, const char *czech, int is_one,
                       const char *what)
{
    check(is_one ? is_clause(english) : english == NULL, what,
          "has a text in English exactly if it is one");
    check(is_one ? is_clause(czech) : czech == NULL, what,
          "has a text in Czech exactly if it is one");
    if (is_one && english != NULL && has_letters(english))
        check(czech == NULL || strcmp(english, czech) != 0, what,
              "is not said in the same words in both languages");
    if (english != NULL && czech != NULL)
        check(same_digits(english, czech), czech,
              "has the numbers that English has");
}

static int same_words(const char *one, const char *other)
{
    return one != NULL && other != NULL && strcmp(one, other) == 0;
}

/* ---- fields and causes: the header's, each in words of its own ---- */

struct known {
    const char *kind; /* as the enum is called */
    const char *(*words)(uint64_t language, uint64_t number);
    const char *(*constant)(uint64_t number);
    uint64_t numbers[MOST_KNOWN];
    size_t count;
};

static struct known fields = {"enum abo_found_field {", abo_tell_field,
                              abo_tell_field_constant, {0}, 0};
static struct known causes = {"enum abo_cause {", abo_tell_cause,
                              abo_tell_cause_constant, {0}, 0};

/* Each line of the enum, as `ABO_FOUND_TOTAL = 21,`. */
static void learn(struct known *k, const char *header)
{
    char line[1024], name[64];
    unsigned number;
    int inside = 0;
    FILE *f = page(header);
    while (fgets(line, sizeof line, f) != NULL) {
        if (strncmp(line, k->kind, strlen(k->kind)) == 0)
            inside = 1;
        if (inside && line[0] == '}')
            break;
        if (!inside || sscanf(line, " %63[A-Z_0-9] = %u", name, &number) != 2)
            continue;
        check(k->count < MOST_KNOWN, name, "has a place in this test");
        check(same_words(k->constant(number), name), name,
              "is the constant's name");
        if (k->count < MOST_KNOWN)
            k->numbers[k->count++] = number;
    }
    fclose(f);
}

static int is_known(const struct known *k, uint64_t number)
{
    for (size_t i = 0; i < k->count; i++)
        if (k->numbers[i] == number)
            return 1;
    return 0;
}

static void check_number(const struct known *k, uint64_t number)
{
    char what[80];
    int is_one = is_known(k, number);
    snprintf(what, sizeof what, "%s %llu", k->kind, (unsigned long long)number);
    check((k->constant(number) != NULL) == is_one, what,
          "has a name exactly if the header has it");
    check_both(k->words(ABO_ENGLISH, number), k->words(ABO_CZECH, number),
               is_one, what);
    check(k->words(7, number) == k->words(ABO_ENGLISH, number), what,
          "is in English if the language is none");
}

static void check_known(struct known *k, const char *header, size_t due)
{
    learn(k, header);
    check(k->count == due, k->kind, "has as many numbers as the page");
    for (uint64_t number = 0; number < PAST_ALL; number++)
        check_number(k, number);
    for (size_t i = 0; i < COUNT_OF(odd); i++)
        check_number(k, odd[i]);
    for (uint64_t language = 0; language < LANGUAGES; language++)
        for (size_t i = 0; i < k->count; i++)
            for (size_t j = 0; j < i; j++)
                check(!same_words(k->words(language, k->numbers[i]),
                                  k->words(language, k->numbers[j])),
                      k->words(language, k->numbers[i]),
                      "is another text than those before");
}

/* ---- abo_say.c in Czech ---- */

static void check_field_in(uint64_t row, uint64_t field)
{
    char what[64];
    snprintf(what, sizeof what, "row %u, field %u", (unsigned)row,
             (unsigned)field);
    check_both(abo_say_field_in(ABO_ENGLISH, row, field),
               abo_say_field_in(ABO_CZECH, row, field),
               abo_say_field(row, field) != NULL, what);
    check_both(abo_say_allowed_in(ABO_ENGLISH, row, field),
               abo_say_allowed_in(ABO_CZECH, row, field),
               abo_say_allowed(row, field) != NULL, what);
    for (uint64_t sheet = 0; sheet <= SHEETS + 1; sheet++)
        check_both(abo_say_carried_in(ABO_ENGLISH, sheet, row, field),
                   abo_say_carried_in(ABO_CZECH, sheet, row, field),
                   abo_say_carried(sheet, row, field) != NULL, what);
}

static void check_items_in(void)
{
    static const char *const czech[] = {"plateb", "platba", "platby",
                                        "platby", "platby", "plateb"};
    for (uint64_t count = 0; count < COUNT_OF(czech); count++) {
        check(strcmp(abo_say_items_in(ABO_CZECH, 1501, count),
                     czech[count]) == 0,
              czech[count], "goes by the count");
        check(strcmp(abo_say_items_in(ABO_ENGLISH, 1501, count),
                     count == 1 ? "payment" : "payments") == 0,
              "payments", "go by the count");
    }
    for (uint64_t kind = 1500; kind <= 1505; kind++) {
        check_both(abo_say_items_in(ABO_ENGLISH, kind, 1),
                   abo_say_items_in(ABO_CZECH, kind, 1), 1, "items");
        check(strcmp(abo_say_items_in(ABO_ENGLISH, kind, 5),
                     abo_say_items(kind)) == 0,
              "items", "are those of abo_say_items");
    }
}

static void check_say_in(void)
{
    for (uint64_t number = 0; number <= ABO_BAD_BALANCE + 1; number++)
        check_both(abo_say_number_in(ABO_ENGLISH, number),
                   abo_say_number_in(ABO_CZECH, number), 1, "a number");
    for (uint64_t row = 0; row <= ABO_STATEMENT_MOVEMENT + 1; row++) {
        check_both(abo_say_row_in(ABO_ENGLISH, row),
                   abo_say_row_in(ABO_CZECH, row), 1, "a row");
        for (uint64_t field = 0; field <= ABO_ROW_WORDS; field++)
            check_field_in(row, field);
    }
    for (uint64_t sheet = 0; sheet <= SHEETS + 1; sheet++)
        for (uint64_t language = 0; language < LANGUAGES; language++)
            check((abo_say_bank_in(language, sheet) != NULL) ==
                      (abo_say_sheet(sheet) != NULL),
                  "a bank", "has a name exactly if there is its sheet");
    check_items_in();
}

/* ---- sentences of findings ---- */

struct told {
    const uint8_t *file;
    size_t len;
    uint64_t sheet;
    struct abo_finding f;
};

static size_t reason(const struct told *t, uint64_t language,
                     char text[ABO_TELL_BYTES])
{
    size_t len = abo_tell_reason(language, &t->f, t->file, t->len, t->sheet,
                                 TODAY, text, ABO_TELL_BYTES);
    check(len < ABO_TELL_BYTES && strlen(text) == len, text,
          "has room in what the header says");
    return len;
}

/* The clause names the field and the cause, and has nothing left open. */
static void check_reason(const struct told *t, uint64_t language)
{
    char text[ABO_TELL_BYTES], begins[256];
    reason(t, language, text);
    snprintf(begins, sizeof begins, "%s: %s; ",
             abo_tell_field(language, t->f.field),
             abo_tell_cause(language, t->f.cause));
    check(strncmp(text, begins, strlen(begins)) == 0, text,
          "begins with the field and the cause");
    check(strpbrk(text, "{}\n") == NULL, text, "has nothing left open");
    check(strstr(text, language == ABO_CZECH ? "co stanoví list"
                                             : "what the sheet says") == NULL,
          text, "says what the sheet allows");
}

/* In less room than the sentence and its zero byte there is the empty text. */
static void check_room(const struct told *t, uint64_t language)
{
    char text[ABO_TELL_BYTES], other[ABO_TELL_BYTES];
    size_t len = abo_tell_finding(language, &t->f, t->file, t->len, t->sheet,
                                  TODAY, text, sizeof text);
    check(len < sizeof text && text[len - 1] == '.', text, "is a sentence");
    memset(other, 7, sizeof other);
    check(abo_tell_finding(language, &t->f, t->file, t->len, t->sheet, TODAY,
                           other, len) == len && other[0] == '\0',
          text, "is not there in part");
    check(other[len] == 7, text, "leaves what lies behind the room");
    check(abo_tell_finding(language, &t->f, t->file, t->len, t->sheet, TODAY,
                           other, len + 1) == len && strcmp(text, other) == 0,
          text, "is there whole in just its room");
    check(abo_tell_finding(language, &t->f, t->file, t->len, t->sheet, TODAY,
                           NULL, 0) == len,
          text, "needs no room to be counted");
}

/* Causes whose words go by a table of this library's fields and sheets, which
   abo_explain has from the sheet itself. */
static int is_spelled(const struct told *t)
{
    return t->f.cause == ABO_CAUSE_CLOSING || t->f.cause == ABO_CAUSE_SPELLING;
}

/* What was found is quoted as abo_explain quotes it, and what is allowed in a
   field is said as there. */
static void check_explained(const struct told *t)
{
    static uint8_t lines[ABO_EXPLAIN_BYTES + 1];
    char text[ABO_TELL_BYTES], *found, *allowed;
    struct abo_text e = abo_explain(t->file, t->len, t->sheet, TODAY, lines,
                                    ABO_EXPLAIN_BYTES);
    check(e.number == ABO_ACCEPTED, "a refused file", "is explained");
    lines[e.bytes] = '\0';
    reason(t, ABO_ENGLISH, text);
    found = strstr(text, "; found ");
    allowed = strstr(text, "; allowed: ");
    check(found != NULL && allowed != NULL, text,
          "has what was found and what is allowed");
    if (found == NULL || allowed == NULL)
        return;
    if (is_spelled(t))
        check(strstr((const char *)lines, found) != NULL, found,
              "is what abo_explain says");
    *allowed = '\0';
    check(strstr((const char *)lines, found) != NULL, found,
          "is found by abo_explain too");
}

/* Days are spelled in another order. */
static int has_day(uint64_t cause)
{
    return cause == ABO_CAUSE_DAY_EARLY || cause == ABO_CAUSE_DAY_LATE ||
           cause == ABO_CAUSE_COLLECTION_EARLY ||
           cause == ABO_CAUSE_COLLECTION_LATE ||
           cause == ABO_CAUSE_WARNED_PAST || cause == ABO_CAUSE_REGISTER_DATE;
}

static void check_digits(const struct told *t)
{
    char english[ABO_TELL_BYTES], czech[ABO_TELL_BYTES];
    reason(t, ABO_ENGLISH, english);
    reason(t, ABO_CZECH, czech);
    check(same_digits(english, czech), czech,
          "has the numbers that English has");
}

/* ---- files that are spoilt byte by byte ---- */

static int seen_cause[PAST_ALL], seen_field[MOST_KNOWN];

static void check_told(const struct told *t)
{
    int first = !seen_cause[t->f.cause] || !seen_field[t->f.field];
    seen_cause[t->f.cause] = seen_field[t->f.field] = 1;
    for (uint64_t language = 0; language < LANGUAGES; language++) {
        check_reason(t, language);
        if (first)
            check_room(t, language);
    }
    if (!has_day(t->f.cause))
        check_digits(t);
    /* explaining takes no register */
    if (t->f.number != 0 && t->f.number <= ABO_TOO_MANY)
        check_explained(t);
}

static void check_file(const uint8_t *file, size_t len, uint64_t sheet)
{
    enum { PLENTY = 16 };
    struct abo_finding list[PLENTY];
    struct abo_list l =
        abo_findings_of(file, len, sheet, TODAY, list, COUNT_OF(list));
    check(l.number == ABO_ACCEPTED, "a file", "has its findings listed");
    for (uint64_t i = 0; i < l.count; i++) {
        struct told t = {file, len, sheet, list[i]};
        check_told(&t);
    }
}

/* Every byte exchanged for others, taken out, doubled, and what follows it cut
   off. */
static void spoil(const char *text, uint64_t sheet)
{
    static const char others[] = "x0179 -,+|#\"\\\t\n\x80";
    uint8_t file[ROOM];
    size_t len = strlen(text);
    check_file((const uint8_t *)text, len, sheet);
    for (size_t at = 0; at < len; at++) {
        memcpy(file, text, len);
        for (const char *other = others; *other != '\0'; other++) {
            file[at] = (uint8_t)*other;
            check_file(file, len, sheet);
        }
        memcpy(file + at, text + at + 1, len - at - 1);
        check_file(file, len - 1, sheet);
        memcpy(file + at + 1, text + at, len - at);
        file[at] = (uint8_t)text[at];
        check_file(file, len + 1, sheet);
        check_file(file, at, sheet);
    }
}

#define LONG36 "012345678901234567890123456789012345"
#define HEAD "UHL1010118Firma               1234567890001002000000000000\n"

/* With several groups, a payer for each item, symbols, texts, closing lines. */
static const struct {
    uint64_t sheet;
    const char *text;
} samples[] = {
    {ABO_SHEET_K, HEAD "1 1501 001001 8100\n2 19-19 3 010118\n"
                       "705 1 0 0103000558 0 AV:a|b\n705 2 0 03000558 17\n3 +\n"
                       "2 1 311218\n19 705 1 0 03000558\n3 +\n5 +\n"
                       "1 1501 002001 8100\n2 19-19 1 010118\n"
                       "705 1 0 03000558\n3 +\n5 +\n"},
    {ABO_SHEET_S, HEAD "1 1502 001001 0800\n2 19-19 3 010118\n"
                       "705 1 0 03000558 0 a\n705 2 0 03000558 17 \n3 +\n"
                       "2  1 311218\n19 705 1 0 03000558  \n3 +\n5 +\n"},
    {ABO_SHEET_C, "UHL1\n1 1501 000000 0300\n2 19-19 9 311217\n"
                  "705 1 0 03000558 0 AV:" LONG36 "|" LONG36 "|" LONG36
                  "|" LONG36 " NP:" LONG36 "\n3+\n5+\n"
                  "1 1502 000000 0300\n2 1 20180102\n"
                  "19 705 1 0 03000558 a|b|c|d\n3 +\n5 +\n"},
    {ABO_SHEET_E, HEAD "1 1501 001001 6100\n2 19-19 1,23 010118\n"
                       "705 1,00 0 03000558 0 AV:a\n3+\n"
                       "2  1 311218\n19 705 1 0 03000558\n3 +\n5 +\n"},
    {ABO_SHEET_P, HEAD "1 1502 001001 0300\n2 19-19 1 20180201\n"
                       "705 1 0 0003000558 0 AV:a|b\n3 +\n"
                       "2 1 010118\n19 705 1 0 0003000558\n3 +\n5 +\n"},
};

/* A sum that passes 14 digits, a part that is too long, and files that are too
   long for a sample: one cause of each. */
static void check_rare(void)
{
    static const struct abo_finding rare[] = {
        {ABO_TOO_MANY, ABO_CAUSE_MANY_FILES, 9, 0, 4, ABO_FOUND_LINE, 0, 1000},
        {ABO_TOO_MANY, ABO_CAUSE_MANY_FILE_ITEMS, 9, 0, 4, ABO_FOUND_LINE, 0,
         99999},
        {ABO_TOO_MANY, ABO_CAUSE_MANY_ITEMS, 9, 0, 4, ABO_FOUND_LINE, 0, 1000},
    };
    static const uint8_t line[] = {'1', '9', ' ', '1'};
    spoil("UHL1\n1 1501 000000 0300\n2 19 1 010118\n"
          "19 99999999999999 0 03000558\n19 1 0 03000558\n3 +\n5 +\n",
          ABO_SHEET_C);
    spoil(HEAD "1 1501 001001 8100\n2 19-19 1 010118\n"
               "705 1 0 03000558 0 AV:" LONG36 "\n3 +\n5 +\n", ABO_SHEET_K);
    spoil(HEAD "1 1501 001001 0800\n2 19-19 1 010118\n"
               "705 1000000000000 0 03000558 0 a|\n3 +\n5 +\n", ABO_SHEET_S);
    spoil(HEAD "1 1501 001001 0800\n2 19-19 1 010118\n"
               "705 1 0 03000558 0 a|\n3 +\n5 +\n", ABO_SHEET_S);
    spoil(HEAD "1 1501 001001 6100\n2 19-19 1000000000000 010118\n"
               "705 1000000000000 0 03000558\n3 +\n5 +\n", ABO_SHEET_E);
    spoil(HEAD "1 1501 001001 8100\n2 19-19 1 010118\n"
               "705 1 0 00000558 0 AV:\n3 +\n5 +\n", ABO_SHEET_K);
    spoil(HEAD "1 1501 001001 8100\n2 19-19 1 010118\n"
               "705 1 0 03000558 0 AV:a|b|c|d|e\n3 +\n5 +\n", ABO_SHEET_K);
    spoil("UHL1\n1 1502 000000 0300\n2 19 1 020218\n19 1 0 03000558\n3 +\n",
          ABO_SHEET_C);
    for (size_t i = 0; i < COUNT_OF(rare); i++) {
        struct told t = {line, sizeof line, ABO_SHEET_S, rare[i]};
        for (uint64_t language = 0; language < LANGUAGES; language++)
            check_reason(&t, language);
        seen_cause[rare[i].cause] = 1;
    }
}

/* ---- files that are refused for a register ---- */

static const uint8_t two_files[] =
    "UHL1020118Firma               1234567890001002000000000000\r\n"
    "1 1501 002001 8100\r\n2 19-19 1 020118\r\n705 1 0 03000558\r\n3 +\r\n"
    "5 +\r\n1 1501 001007 8100\r\n2 19-19 1 020118\r\n705 1 0 03000558\r\n"
    "3 +\r\n5 +\r\n";
enum { TWO_FILES = sizeof two_files - 1, THEIR_DAY = 20180102 };

/* The finding of a register's refusal is at the answer's place, with what was
   found there; any other answer has none, and leaves it. */
static struct told registered(const struct abo_register *reg, size_t reg_len,
                              struct abo_finding due)
{
    struct told t = {two_files, TWO_FILES, ABO_SHEET_K, {0, 0, 0, 0, 0, 0, 0, 0}};
    struct abo_register lent = *reg;
    const uint8_t *bytes = (const uint8_t *)reg;
    struct abo_answer a =
        abo_read_registered(two_files, TWO_FILES, ABO_SHEET_K, TODAY, NULL, 0,
                            (uint8_t *)&lent, reg_len);
    memset(&t.f, 7, sizeof t.f);
    struct abo_finding before = t.f;
    int given =
        abo_tell_registered(&a, two_files, TWO_FILES, bytes, reg_len, &t.f);
    int is_refusal = due.number != 0;
    check(given == is_refusal, "abo_tell_registered",
          "gives 1 exactly with 22 and 23");
    check(memcmp(&t.f, is_refusal ? &due : &before, sizeof due) == 0,
          "abo_tell_registered", "fills the finding, or leaves it");
    return t;
}

static void check_registered(const struct told *t, const char *english,
                             const char *czech)
{
    char text[ABO_TELL_BYTES];
    check_told(t);
    abo_tell_finding(ABO_ENGLISH, &t->f, t->file, t->len, t->sheet, TODAY, text,
                     sizeof text);
    check(strcmp(text, english) == 0, text, english);
    abo_tell_finding(ABO_CZECH, &t->f, t->file, t->len, t->sheet, TODAY, text,
                     sizeof text);
    check(strcmp(text, czech) == 0, text, czech);
}

/* 002 of the first account file and 001 of the second, with other numbers
   beside them. */
static void check_numbers_taken(struct abo_register reg)
{
    struct abo_finding first = {ABO_NUMBER_USED, ABO_CAUSE_NUMBER_TAKEN, 2, 67, 6,
                                ABO_FOUND_NUMBER, 3, 999};
    struct abo_finding second = {ABO_NUMBER_USED, ABO_CAUSE_NUMBER_TAKEN, 7, 133, 6,
                                 ABO_FOUND_NUMBER, 0, 999};
    reg.numbers[0] = 2;
    struct told t = registered(&reg, sizeof reg, second);
    check_registered(
        &t,
        "Line 7, byte 133, the account file's number: its first three digits "
        "were used that day; found \"001007\"; allowed: first three digits that "
        "were not used that day, the lowest free being 000 (22).",
        "Řádek 7, bajt 133, číslo účetního souboru: jeho první tři číslice už "
        "byly toho dne použity; nalezeno: \"001007\"; dovoleno: první tři "
        "číslice, které toho dne ještě nebyly použity, nejníže 000 (22).");
    reg.numbers[0] = 7;
    t = registered(&reg, sizeof reg, first);
    check_told(&t);
    memset(reg.numbers, 0xff, sizeof reg.numbers);
    reg.numbers[15] = (UINT64_C(1) << 40) - 1;
    first.least = ABO_REGISTER_NUMBERS;
    t = registered(&reg, sizeof reg, first);
    check_registered(
        &t,
        "Line 2, byte 67, the account file's number: its first three digits "
        "were used that day; found \"002001\"; allowed: first three digits that "
        "were not used that day, but none is left (22).",
        "Řádek 2, bajt 67, číslo účetního souboru: jeho první tři číslice už "
        "byly toho dne použity; nalezeno: \"002001\"; dovoleno: první tři "
        "číslice, které toho dne ještě nebyly použity, ale žádné už nezbývají "
        "(22).");
}

static void check_other_registers(struct abo_register reg)
{
    struct abo_finding malformed = {ABO_BAD_REGISTER, ABO_CAUSE_REGISTER_MALFORMED, 1, 4,
                                    6, ABO_FOUND_DATE, 0, 0};
    struct abo_finding other = {ABO_BAD_REGISTER, ABO_CAUSE_REGISTER_DATE, 1, 4, 6,
                                ABO_FOUND_DATE, 20171231, 20171231};
    struct told t = registered(&reg, sizeof reg - 1, malformed);
    check_registered(
        &t,
        "Line 1, byte 4, the creation date: the register of the day's numbers "
        "is not laid out as one; found \"020118\"; allowed: a register that was "
        "started for this date (23).",
        "Řádek 1, bajt 4, datum vytvoření: registr čísel dne nemá podobu "
        "registru; nalezeno: \"020118\"; dovoleno: registr založený na toto "
        "datum (23).");
    t = registered(&reg, 0, malformed);
    check_told(&t);
    reg.date = 20171231;
    t = registered(&reg, sizeof reg, other);
    check_registered(
        &t,
        "Line 1, byte 4, the creation date: the register of the day's numbers "
        "is for another day; found \"020118\"; allowed: the register's date, "
        "2017-12-31 (23).",
        "Řádek 1, bajt 4, datum vytvoření: registr čísel je na jiný den; "
        "nalezeno: \"020118\"; dovoleno: datum registru, 31. 12. 2017 (23).");
}

/* An answer of another file has nothing to be found there, and is no harm. */
static void check_stray_answer(const struct abo_register *reg)
{
    struct abo_finding f;
    struct abo_answer a;
    memset(&a, 0, sizeof a);
    a.number = ABO_NUMBER_USED;
    a.line = 1;
    a.byte = UINT64_MAX;
    check(abo_tell_registered(&a, two_files, TWO_FILES, (const uint8_t *)reg,
                              sizeof *reg, &f) == 1 && f.length == 0,
          "a place behind the file", "has no bytes");
    a.byte = TWO_FILES - 3;
    check(abo_tell_registered(&a, two_files, TWO_FILES, (const uint8_t *)reg,
                              sizeof *reg, &f) == 1 && f.length == 1,
          "the line's end", "ends what was found");
}

static void check_registers(void)
{
    static const struct abo_finding none = {0, 0, 0, 0, 0, 0, 0, 0};
    struct abo_register reg;
    check(abo_register_start(THEIR_DAY, (uint8_t *)&reg, sizeof reg).number ==
              ABO_ACCEPTED,
          "a day", "is started");
    registered(&reg, sizeof reg, none);
    check_numbers_taken(reg);
    check_other_registers(reg);
    check_stray_answer(&reg);
}

static void check_spoilt(void)
{
    for (size_t i = 0; i < COUNT_OF(samples); i++)
        spoil(samples[i].text, samples[i].sheet);
    check_rare();
    check_registers();
    for (size_t i = 0; i < causes.count; i++)
        check(seen_cause[causes.numbers[i]],
              abo_tell_cause_constant(causes.numbers[i]), "was told of a file");
    for (size_t i = 0; i < fields.count; i++)
        check(seen_field[fields.numbers[i]],
              abo_tell_field_constant(fields.numbers[i]), "was told of a file");
}

/* Every cause at every field on every sheet has room, with the longest numbers
   and bytes that are all escaped, also where the library never finds it. */
static void check_longest(void)
{
    uint8_t file[100];
    size_t longest = 0;
    memset(file, 0xff, sizeof file);
    for (size_t cause = 0; cause < causes.count; cause++)
        for (size_t field = 0; field < fields.count; field++)
            for (uint64_t sheet = 0; sheet <= SHEETS; sheet++)
                for (uint64_t language = 0; language < LANGUAGES; language++) {
                    const struct abo_finding f = {
                        ABO_TOO_MANY,          causes.numbers[cause],
                        UINT64_MAX,            0,
                        sizeof file,           fields.numbers[field],
                        UINT64_MAX,            UINT64_MAX - 1};
                    size_t len =
                        abo_tell_finding(language, &f, file, sizeof file, sheet,
                                         UINT64_MAX, NULL, 0);
                    longest = len > longest ? len : longest;
                }
    check(longest < ABO_TELL_BYTES, "the longest sentence",
          "has room in what the header says");
}

/* What is none of abo.h's is told by its number. */
static void check_unknown(void)
{
    static const uint8_t file[] = {'a', '"', 0xe8, '\n'};
    struct told t = {file, sizeof file, ABO_SHEET_K,
                     {4, 999, 1, 0, 3, 77, 0, 0}};
    char text[ABO_TELL_BYTES];
    reason(&t, ABO_ENGLISH, text);
    check(strcmp(text, "field 77: cause 999; found \"a\\x22\\xE8\"") == 0, text,
          "tells numbers that have no words");
    reason(&t, ABO_CZECH, text);
    check(strcmp(text, "pole 77: příčina 999; nalezeno: \"a\\x22\\xE8\"") == 0,
          text, "tells numbers that have no words");
    t.f.length = 5;
    reason(&t, ABO_ENGLISH, text);
    check(strcmp(text, "field 77: cause 999; found nothing") == 0, text,
          "does not quote past the file's end");
}

/* ---- verdicts ---- */

static void check_verdict_of(const struct abo_finding *f, uint64_t language,
                             struct abo_list answer, const char *due)
{
    char text[ABO_TELL_BYTES];
    size_t len = abo_tell_verdict(language, &answer, f, text, sizeof text);
    check(len == strlen(due) && strcmp(text, due) == 0, text,
          "is what the sheet makes of the file");
}

static void check_verdict(uint64_t language, struct abo_list answer,
                          const char *due)
{
    static const struct abo_finding f = {
        ABO_BAD_PAYER_BANK, ABO_CAUSE_PAYER_BANK, 2, 74, 4,
        ABO_FOUND_PAYER_BANK, 800, 800};
    check_verdict_of(&f, language, answer, due);
}

static void check_verdicts(void)
{
    static const struct abo_list accepted = {0, 0, 1, 0, 4},
                                 warned = {16, 0, 0, 12, 0},
                                 refused = {0, 1, 1, 0, 4},
                                 no_sheet = {1, 0, 0, 0, 0};
    static const struct abo_finding taken = {
        ABO_NUMBER_USED, ABO_CAUSE_NUMBER_TAKEN, 2, 67, 6, ABO_FOUND_NUMBER, 3,
        999};
    check_verdict(ABO_ENGLISH, accepted, "accepted, warnings 1");
    check_verdict(ABO_CZECH, accepted, "přijato, varování: 1");
    check_verdict(ABO_ENGLISH, warned, "accepted, warnings 12");
    check_verdict(ABO_CZECH, warned, "přijato, varování: 12");
    check_verdict(ABO_ENGLISH, refused,
                  "refused (8) at line 2, the payer's bank");
    check_verdict(ABO_CZECH, refused, "odmítnuto (8) na řádku 2, banka plátce");
    check_verdict(ABO_ENGLISH, no_sheet,
                  "the sheet is none of K, S, C, E and P (1)");
    check_verdict(ABO_CZECH, no_sheet, "list není žádný z K, S, C, E a P (1)");
    check_verdict_of(&taken, ABO_ENGLISH, refused,
                     "refused (22) at line 2, the account file's number");
    check_verdict_of(&taken, ABO_CZECH, refused,
                     "odmítnuto (22) na řádku 2, číslo účetního souboru");
}

/* ---- rows that are not written ---- */

static void written(uint64_t language, struct abo_written w, uint64_t kind,
                    uint64_t sheet, char text[ABO_TELL_BYTES])
{
    size_t len =
        abo_tell_written(language, &w, kind, sheet, text, ABO_TELL_BYTES);
    char number[16];
    snprintf(number, sizeof number, " (%u).", (unsigned)w.number);
    check(len == strlen(text) && len > strlen(number) &&
              strcmp(text + len - strlen(number), number) == 0,
          text, "is a sentence that ends with the number");
}

static void check_written_field(uint64_t kind, uint64_t field)
{
    char text[ABO_TELL_BYTES];
    for (uint64_t language = 0; language < LANGUAGES; language++)
        for (uint64_t sheet = 1; sheet <= SHEETS; sheet++) {
            struct abo_written w = {ABO_NOT_A_BATCH, kind == 0 ? 0u : 3u, field,
                                    0};
            const char *carried =
                abo_say_carried_in(language, sheet, kind, field);
            written(language, w, kind, sheet, text);
            check(strstr(text, abo_say_field_in(language, kind, field)) &&
                      strstr(text, abo_say_allowed_in(language, kind, field)),
                  text, "names the field and what may stand there");
            w.number = ABO_NOT_CARRIED;
            written(language, w, kind, sheet, text);
            check(strstr(text, abo_say_field_in(language, kind, field)) &&
                      (carried == NULL || strstr(text, carried) != NULL),
                  text, "names the field and what the sheet carries");
        }
}

static void check_sentence(uint64_t language, struct abo_written w,
                           uint64_t kind, const char *due)
{
    char text[ABO_TELL_BYTES];
    written(language, w, kind, ABO_SHEET_K, text);
    check(strcmp(text, due) == 0, text, due);
}

static void check_written(void)
{
    static const struct abo_written bank = {20, 3, ABO_ITEM_BANK, 0},
                                    own = {20, 3, ABO_ITEM_REFERENCE, 0},
                                    missing = {20, 1, 0, 0},
                                    kind = {21, 1, ABO_FILE_KIND, 0},
                                    sheet = {1, 0, 0, 0},
                                    to = {21, 0, ABO_HEADER_TO, 0},
                                    code = {51, 2, ABO_MOVEMENT_CODE, 0};
    for (uint64_t row = 0; row <= ABO_ROW_ITEM; row++)
        for (uint64_t field = 1; field < ABO_ROW_WORDS; field++)
            if (abo_say_field(row, field) != NULL)
                check_written_field(row, field);
    check_sentence(ABO_ENGLISH, bank, ABO_ROW_ITEM,
                   "Row 3, item, the payee's bank: this is no batch on any "
                   "sheet; allowed: 0001 to 9999 (20).");
    check_sentence(ABO_CZECH, bank, ABO_ROW_ITEM,
                   "Řádek 3, položka, banka příjemce: toto není dávka podle "
                   "žádného listu; dovoleno: 0001 až 9999 (20).");
    check_sentence(ABO_ENGLISH, own, ABO_ROW_ITEM,
                   "Row 3, item, the reference: this is no batch on any "
                   "sheet; allowed: 0 to 4294967295 (20).");
    check_sentence(ABO_CZECH, own, ABO_ROW_ITEM,
                   "Řádek 3, položka, referenční číslo: toto není dávka podle "
                   "žádného listu; dovoleno: 0 až 4294967295 (20).");
    check_sentence(ABO_ENGLISH, missing, 0,
                   "Row 1: this is no batch on any sheet (20).");
    check_sentence(ABO_CZECH, missing, 0,
                   "Řádek 1: toto není dávka podle žádného listu (20).");
    check_sentence(ABO_ENGLISH, kind, ABO_ROW_FILE,
                   "Row 1, account file, the account file's kind: no file of "
                   "this sheet can carry it; allowed: 1501 alone (21).");
    check_sentence(ABO_CZECH, to, 0,
                   "Hlavička, konec intervalu: žádný soubor tohoto listu to "
                   "nemůže obsahovat; dovoleno: ne méně než začátek intervalu "
                   "(21).");
    check_sentence(ABO_ENGLISH, sheet, 0,
                   "Refused: the sheet is none of K, S, C, E and P (1).");
    check_sentence(ABO_CZECH, code, ABO_STATEMENT_MOVEMENT,
                   "Řádek 2, pohyb, kód účtování: toto nejsou číslice, "
                   "znaménko nebo kód, které pole má mít, nebo má číslo "
                   "příliš mnoho číslic; dovoleno: 1, 2, 4 nebo 5 (51).");
}

int main(int argc, char **argv)
{
    if (argc != 2) {
        fprintf(stderr, "tell: name include/abo.h.\n");
        return 2;
    }
    check_known(&fields, argv[1], 27);
    check_known(&causes, argv[1], 47);
    check_say_in();
    check_spoilt();
    check_longest();
    check_unknown();
    check_verdicts();
    check_written();
    return last_line();
}
