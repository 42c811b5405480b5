/* One row for each field, cause and spelling, with its text in every language side by side; then the sentences that are made of them. */
#include "abo_tell.h"

#include <stdbool.h>
#include <string.h>

#define COUNT_OF(table) (sizeof(table) / sizeof *(table))

/* A text in each language: one that has no Czech is no initializer that a compiler lets pass. */
struct both {
    const char *english, *czech;
};

static const char *in(uint64_t language, const struct both *words)
{
    return language == ABO_CZECH ? words->czech : words->english;
}

/* ---- fields ---- */

static const struct field_words {
    uint64_t field;
    const char *constant;
    struct both noun;
} fields[] = {
#define FIELD(name, english, czech) {name, #name, {english, czech}}
    FIELD(ABO_FOUND_LINE, "the line", "řádek"),
    FIELD(ABO_FOUND_DATE, "the creation date", "datum vytvoření"),
    FIELD(ABO_FOUND_FIRM, "the firm's name", "název firmy"),
    FIELD(ABO_FOUND_CLIENT, "the client number", "číslo klienta"),
    FIELD(ABO_FOUND_FROM, "the interval's start", "začátek intervalu"),
    FIELD(ABO_FOUND_TO, "the interval's end", "konec intervalu"),
    FIELD(ABO_FOUND_REST, "the rest of the first line", "zbytek prvního řádku"),
    FIELD(ABO_FOUND_KIND, "the account file's kind", "druh účetního souboru"),
    FIELD(ABO_FOUND_NUMBER, "the account file's number", "číslo účetního souboru"),
    FIELD(ABO_FOUND_PAYER_BANK, "the payer's bank", "banka plátce"),
    FIELD(ABO_FOUND_GROUP_PAYER, "the payer's account of the group", "účet plátce skupiny"),
    FIELD(ABO_FOUND_TOTAL, "the group's total", "součet skupiny"),
    FIELD(ABO_FOUND_DUE, "the due date", "datum splatnosti"),
    FIELD(ABO_FOUND_PAYER, "the payer's account", "účet plátce"),
    FIELD(ABO_FOUND_PAYEE, "the payee's account", "účet příjemce"),
    FIELD(ABO_FOUND_AMOUNT, "the amount", "částka"),
    FIELD(ABO_FOUND_VARIABLE, "the variable symbol", "variabilní symbol"),
    FIELD(ABO_FOUND_BANK, "the bank field", "bankovní pole"),
    FIELD(ABO_FOUND_SPECIFIC, "the specific symbol", "specifický symbol"),
    FIELD(ABO_FOUND_TEXT, "the text", "text"),
    FIELD(ABO_FOUND_PART_1, "the first part of the message", "první část zprávy"),
    FIELD(ABO_FOUND_PART_2, "the second part of the message", "druhá část zprávy"),
    FIELD(ABO_FOUND_PART_3, "the third part of the message", "třetí část zprávy"),
    FIELD(ABO_FOUND_PART_4, "the fourth part of the message", "čtvrtá část zprávy"),
    FIELD(ABO_FOUND_NAME, "the payee's name", "jméno příjemce"),
    FIELD(ABO_FOUND_GROUP_END, "the group's end", "konec skupiny"),
    FIELD(ABO_FOUND_FILE_END, "the account file's end", "konec účetního souboru"),
#undef FIELD
};

static const struct field_words *words_of_field(uint64_t field)
{
    for (size_t i = 0; i < COUNT_OF(fields); i++)
        if (fields[i].field == field)
            return &fields[i];
    return NULL;
}

const char *abo_tell_field(uint64_t language, uint64_t field)
{
    const struct field_words *words = words_of_field(field);
    return words != NULL ? in(language, &words->noun) : NULL;
}

const char *abo_tell_field_constant(uint64_t field)
{
    const struct field_words *words = words_of_field(field);
    return words != NULL ? words->constant : NULL;
}

/* ---- causes ---- */

/* The reason, and then what is allowed or, of a warning, what becomes of it.  In the latter stand in braces what the finding says: {least}
   and {most} as numbers, or so many digits long ({least 3}), or as crowns ({most crowns}), or as a day ({least day}); {range}, both, or one
   if they are equal; {free}, which of the day's numbers is the lowest free one; {today}; {field}; {spelled}, which goes by the field and
   the sheet. */
static const struct cause_words {
    uint64_t cause;
    const char *constant;
    struct both reason, allowed;
} causes[] = {
#define CAUSE(name, english, czech, allowed_english, allowed_czech)                                                         \
    {name, #name, {english, czech}, {allowed_english, allowed_czech}}
    CAUSE(ABO_CAUSE_DUE_FIRST, "a file must begin with its first line", "soubor musí začínat prvním řádkem",
          "a first line, UHL1", "první řádek, UHL1"),
    CAUSE(ABO_CAUSE_DUE_FILE, "an account file must follow the first line", "za prvním řádkem musí následovat účetní soubor",
          "an account file, 1", "účetní soubor, 1"),
    CAUSE(ABO_CAUSE_DUE_GROUP, "an account file must begin with a group", "účetní soubor musí začínat skupinou",
          "a group, 2", "skupina, 2"),
    CAUSE(ABO_CAUSE_DUE_ITEM, "a group must begin with an item", "skupina musí začínat položkou",
          "an item", "položka"),
    CAUSE(ABO_CAUSE_DUE_ITEM_OR_END, "another item or the group's end must follow an item",
          "za položkou musí následovat další položka nebo konec skupiny",
          "an item or the group's end, 3 +", "položka nebo konec skupiny, 3 +"),
    CAUSE(ABO_CAUSE_DUE_GROUP_OR_END, "another group or the account file's end must follow a group",
          "za skupinou musí následovat další skupina nebo konec účetního souboru",
          "a group, 2, or the account file's end, 5 +", "skupina, 2, nebo konec účetního souboru, 5 +"),
    CAUSE(ABO_CAUSE_DUE_FILE_OR_END, "another account file or the end of the file must follow an account file",
          "za účetním souborem musí následovat další účetní soubor nebo konec souboru",
          "an account file, 1, or the end of the file", "účetní soubor, 1, nebo konec souboru"),
    CAUSE(ABO_CAUSE_SPELLING, "it is not spelled as it must be", "zápis neodpovídá předpisu", "{spelled}", "{spelled}"),
    CAUSE(ABO_CAUSE_DIVIDER_MISSING, "it is missing, and so is the space before it", "chybí i s mezerou, která tu má být",
          "a space and {field} behind it", "mezera a za ní {field}"),
    CAUSE(ABO_CAUSE_DIVIDER_MORE, "something follows it that does not belong to the line", "řádek pokračuje něčím, co do něj nepatří",
          "the end of the line behind it", "hned poté konec řádku"),
    CAUSE(ABO_CAUSE_CLOSING, "the closing line is not spelled as it must be", "zápis ukončovacího řádku neodpovídá předpisu",
          "{spelled}", "{spelled}"),
    CAUSE(ABO_CAUSE_PREFIX_SUM, "the prefix breaks the rule of weighted digits", "předčíslí porušuje pravidlo vážených číslic",
          "a prefix whose weighted digits add up to a multiple of 11", "předčíslí, jehož vážený součet číslic je dělitelný 11"),
    CAUSE(ABO_CAUSE_BASE_SUM, "the base breaks the rule of weighted digits", "základ čísla porušuje pravidlo vážených číslic",
          "a base whose weighted digits add up to a multiple of 11", "základ, jehož vážený součet číslic je dělitelný 11"),
    CAUSE(ABO_CAUSE_BASE_ZEROS, "the base has too few digits that are not zero", "základ čísla má příliš málo nenulových číslic",
          "a base with two digits or more that are not zero", "základ s nejméně dvěma nenulovými číslicemi"),
    CAUSE(ABO_CAUSE_AMOUNT_ZERO, "it is zero", "je nulová",
          "{least crowns} to {most crowns} crowns", "{least crowns} až {most crowns} Kč"),
    CAUSE(ABO_CAUSE_AMOUNT_OVER, "it is over the sheet's limit", "překračuje limit listu",
          "{least crowns} to {most crowns} crowns", "{least crowns} až {most crowns} Kč"),
    CAUSE(ABO_CAUSE_KIND, "this kind is not on the sheet", "tento druh na listu není", "{range}", "{range}"),
    CAUSE(ABO_CAUSE_PAYER_BANK, "this bank is not the sheet's", "tato banka není bankou listu", "{most 4}", "{most 4}"),
    CAUSE(ABO_CAUSE_INTERVAL_TURNED, "it is below the interval's start", "je menší než začátek intervalu",
          "{least 3} to {most 3}", "{least 3} až {most 3}"),
    CAUSE(ABO_CAUSE_NUMBER_OUTSIDE, "its first three digits are outside the interval", "jeho první tři číslice leží mimo interval",
          "first three digits {least 3} to {most 3}", "první tři číslice {least 3} až {most 3}"),
    CAUSE(ABO_CAUSE_NUMBER_USED, "an account file before has the same first three digits",
          "stejné první tři číslice má už některý předchozí účetní soubor",
          "first three digits that no account file before has, {least 3} to {most 3}",
          "první tři číslice, které nemá žádný předchozí účetní soubor, {least 3} až {most 3}"),
    CAUSE(ABO_CAUSE_TOTAL_DIFFERS, "it is not the sum of the items", "nerovná se součtu položek",
          "the sum of the items, {most}, which is {most crowns} crowns", "součet položek, {most}, což je {most crowns} Kč"),
    CAUSE(ABO_CAUSE_SUM_OVER, "the sum of the items has too many digits", "součet položek má příliš mnoho číslic",
          "items of at most {most crowns} crowns together", "položky dohromady nejvýše za {most crowns} Kč"),
    CAUSE(ABO_CAUSE_DAY_NOT_REAL, "there is no such day", "takový den neexistuje",
          "a real day of 2000 to 2099", "skutečný den let 2000 až 2099"),
    CAUSE(ABO_CAUSE_DAY_EARLY, "the day is too early", "datum je příliš časné",
          "a day from {today} on", "{today} nebo pozdější den"),
    CAUSE(ABO_CAUSE_DAY_LATE, "the day is too late", "datum je příliš vzdálené",
          "a day at most {most} days after {today}", "den nejvýše {most} dnů po {today}"),
    CAUSE(ABO_CAUSE_COLLECTION_EARLY, "the group's day is too early for a collection from this bank",
          "datum splatnosti skupiny je pro inkaso z této banky příliš časné",
          "a group's day {spelled} {today}", "datum splatnosti skupiny {spelled} {today}"),
    CAUSE(ABO_CAUSE_COLLECTION_LATE, "the group's day is too late for a collection", "datum splatnosti skupiny je pro inkaso příliš vzdálené",
          "a group's day at most one month after {today}", "datum splatnosti skupiny nejvýše jeden měsíc po {today}"),
    CAUSE(ABO_CAUSE_PAYEE_BANK, "the payee's bank is 0000", "banka příjemce je 0000",
          "{least 4} to {most 4}", "{least 4} až {most 4}"),
    CAUSE(ABO_CAUSE_NINTH_DIGIT, "the ninth digit from the right is not allowed", "devátá číslice zprava není dovolena",
          "0 as the ninth digit from the right", "0 jako devátá číslice zprava"),
    CAUSE(ABO_CAUSE_TENTH_DIGIT, "the tenth digit from the right is not allowed", "desátá číslice zprava není dovolena",
          "0 as the tenth digit from the right", "0 jako desátá číslice zprava"),
    CAUSE(ABO_CAUSE_TEXT_START, "it does not begin with AV:", "nezačíná AV:",
          "a text that begins with AV:", "text, který začíná AV:"),
    CAUSE(ABO_CAUSE_TEXT_PARTS, "it has too many parts", "má příliš mnoho částí",
          "at most {least} parts", "počet částí nejvýše {least}"),
    CAUSE(ABO_CAUSE_TEXT_LENGTH, "a part of it is too long", "některá jeho část je příliš dlouhá",
          "at most {most} bytes in a part", "nejvýše {most} bajtů v části"),
    CAUSE(ABO_CAUSE_TEXT_BAR, "it holds a bar", "obsahuje svislou čáru", "no bar", "žádná svislá čára"),
    CAUSE(ABO_CAUSE_TEXT_MARKS, "it holds # or ~", "obsahuje # nebo ~", "no # and no ~", "žádné # ani ~"),
    CAUSE(ABO_CAUSE_MANY_FILES, "this account file is one too many", "tento účetní soubor je o jeden navíc",
          "at most {most} account files", "nejvýše {most} účetních souborů"),
    CAUSE(ABO_CAUSE_MANY_FILE_ITEMS, "this item is one too many in its account file",
          "tato položka je ve svém účetním souboru o jednu navíc",
          "at most {most} items in an account file", "nejvýše {most} položek v účetním souboru"),
    CAUSE(ABO_CAUSE_MANY_ITEMS, "this item is one too many in the file", "tato položka je v souboru o jednu navíc",
          "at most {most} items in a file", "nejvýše {most} položek v souboru"),
    CAUSE(ABO_CAUSE_NUMBER_TAKEN, "its first three digits were used that day", "jeho první tři číslice už byly toho dne použity",
          "first three digits that were not used that day, {free}", "první tři číslice, které toho dne ještě nebyly použity, {free}"),
    CAUSE(ABO_CAUSE_REGISTER_MALFORMED, "the register of the day's numbers is not laid out as one", "registr čísel dne nemá podobu registru",
          "a register that was started for this date", "registr založený na toto datum"),
    CAUSE(ABO_CAUSE_REGISTER_DATE, "the register of the day's numbers is for another day", "registr čísel je na jiný den",
          "the register's date, {least day}", "datum registru, {least day}"),
    CAUSE(ABO_CAUSE_WARNED_TOTAL, "it differs from the sum of the items", "liší se od součtu položek",
          "the sum is {most}, which is {most crowns} crowns", "součet je {most}, což je {most crowns} Kč"),
    CAUSE(ABO_CAUSE_WARNED_PAST, "the day is past", "datum je v minulosti", "today is {today}", "dnes je {today}"),
    CAUSE(ABO_CAUSE_WARNED_PART, "this part is too long", "tato část je příliš dlouhá",
          "it is cut to {most} bytes", "zkrátí se na {most} bajtů"),
    CAUSE(ABO_CAUSE_WARNED_NAME, "this name is too long", "toto jméno je příliš dlouhé",
          "it is cut to {most} bytes", "zkrátí se na {most} bajtů"),
    CAUSE(ABO_CAUSE_WARNED_PRIORITY, "this priority is not in use", "tato priorita se nepoužívá",
          "priority {least} is read as {most}", "priorita {least} se čte jako {most}"),
#undef CAUSE
};

static const struct cause_words *words_of_cause(uint64_t cause)
{
    for (size_t i = 0; i < COUNT_OF(causes); i++)
        if (causes[i].cause == cause)
            return &causes[i];
    return NULL;
}

const char *abo_tell_cause(uint64_t language, uint64_t cause)
{
    const struct cause_words *words = words_of_cause(cause);
    return words != NULL ? in(language, &words->reason) : NULL;
}

const char *abo_tell_cause_constant(uint64_t cause)
{
    const struct cause_words *words = words_of_cause(cause);
    return words != NULL ? words->constant : NULL;
}

/* ---- how fields are spelled ---- */

#define ANY UINT64_MAX
#define EVERY "KSCEP"

#define ACCOUNT(least, most)                                                                                                \
    least " to " most " digits, or 1 to 6 digits, a dash and " least " to 10 digits"
#define ACCOUNT_CZ(least, most)                                                                                             \
    least " až " most " číslic, nebo 1 až 6 číslic, pomlčka a " least " až 10 číslic"
#define DIGITS_OF(english, czech) {english " digits", czech " číslic"}
#define COMMA                                                                                                               \
    {"1 to 14 bytes: digits, and where there is a comma, two digits behind it and one or more before it",                   \
     "1 až 14 bajtů: číslice, a kde je čárka, dvě číslice za ní a aspoň jedna před ní"}
#define BYTES "text bytes, 32 to 255 but 127"
#define BYTES_CZ "bajty textu, 32 až 255 kromě 127"

/* What {spelled} stands for on the sheets of these letters.  A collection goes by what is allowed at its bank, 0 or 1. */
static const struct {
    uint64_t cause, field, most;
    const char *sheets;
    struct both words;
} spelled[] = {
#define FIELD_OF(field, sheets) ABO_CAUSE_SPELLING, field, ANY, sheets
    {FIELD_OF(ABO_FOUND_DATE, EVERY), {"six digits, DDMMRR", "šest číslic, DDMMRR"}},
    {FIELD_OF(ABO_FOUND_FIRM, EVERY), {"20 bytes of text", "20 bajtů textu"}},
    {FIELD_OF(ABO_FOUND_CLIENT, EVERY), DIGITS_OF("ten", "deset")},
    {FIELD_OF(ABO_FOUND_FROM, EVERY), {"three digits", "tři číslice"}},
    {FIELD_OF(ABO_FOUND_TO, EVERY), {"three digits", "tři číslice"}},
    {FIELD_OF(ABO_FOUND_REST, "K"), {"0 or 6 or 12 bytes of text", "0, 6 nebo 12 bajtů textu"}},
    {FIELD_OF(ABO_FOUND_REST, "SCEP"), {"12 bytes of text", "12 bajtů textu"}},
    {FIELD_OF(ABO_FOUND_KIND, EVERY), {"four digits", "čtyři číslice"}},
    {FIELD_OF(ABO_FOUND_NUMBER, EVERY), DIGITS_OF("six", "šest")},
    {FIELD_OF(ABO_FOUND_PAYER_BANK, EVERY), {"four digits", "čtyři číslice"}},
    {FIELD_OF(ABO_FOUND_GROUP_PAYER, "K"),
     {ACCOUNT("2", "10") "; zeros alone for a single group", ACCOUNT_CZ("2", "10") "; samé nuly, má-li každá položka svého plátce"}},
    {FIELD_OF(ABO_FOUND_GROUP_PAYER, "S"),
     {ACCOUNT("1", "10") "; nothing for a single group", ACCOUNT_CZ("1", "10") "; nic, má-li každá položka svého plátce"}},
    {FIELD_OF(ABO_FOUND_GROUP_PAYER, "E"),
     {ACCOUNT("1", "10") "; nothing or zeros alone for a single group",
      ACCOUNT_CZ("1", "10") "; nic nebo samé nuly, má-li každá položka svého plátce"}},
    {FIELD_OF(ABO_FOUND_GROUP_PAYER, "CP"), {ACCOUNT("1", "16"), ACCOUNT_CZ("1", "16")}},
    {FIELD_OF(ABO_FOUND_TOTAL, "E"), COMMA},
    {FIELD_OF(ABO_FOUND_TOTAL, "KSCP"), DIGITS_OF("1 to 14", "1 až 14")},
    {FIELD_OF(ABO_FOUND_DUE, "KSE"), {"six digits, DDMMRR", "šest číslic, DDMMRR"}},
    {FIELD_OF(ABO_FOUND_DUE, "CP"), {"six digits, DDMMRR, or eight, RRRRMMDD", "šest číslic, DDMMRR, nebo osm, RRRRMMDD"}},
    {FIELD_OF(ABO_FOUND_PAYER, "K"), {ACCOUNT("2", "10"), ACCOUNT_CZ("2", "10")}},
    {FIELD_OF(ABO_FOUND_PAYER, "SE"), {ACCOUNT("1", "10"), ACCOUNT_CZ("1", "10")}},
    {FIELD_OF(ABO_FOUND_PAYER, "CP"), {ACCOUNT("1", "16"), ACCOUNT_CZ("1", "16")}},
    {FIELD_OF(ABO_FOUND_PAYEE, "K"), {ACCOUNT("2", "10"), ACCOUNT_CZ("2", "10")}},
    {FIELD_OF(ABO_FOUND_PAYEE, "SE"), {ACCOUNT("1", "10"), ACCOUNT_CZ("1", "10")}},
    {FIELD_OF(ABO_FOUND_PAYEE, "CP"), {ACCOUNT("1", "16"), ACCOUNT_CZ("1", "16")}},
    {FIELD_OF(ABO_FOUND_AMOUNT, "E"), COMMA},
    {FIELD_OF(ABO_FOUND_AMOUNT, "S"), DIGITS_OF("1 to 12", "1 až 12")},
    {FIELD_OF(ABO_FOUND_AMOUNT, "KCP"), DIGITS_OF("1 to 14", "1 až 14")},
    {FIELD_OF(ABO_FOUND_VARIABLE, EVERY), DIGITS_OF("1 to 10", "1 až 10")},
    {FIELD_OF(ABO_FOUND_BANK, EVERY), DIGITS_OF("8 to 10", "8 až 10")},
    {FIELD_OF(ABO_FOUND_SPECIFIC, "S"), DIGITS_OF("0 to 10", "0 až 10")},
    {FIELD_OF(ABO_FOUND_SPECIFIC, "KCEP"), DIGITS_OF("1 to 10", "1 až 10")},
    {FIELD_OF(ABO_FOUND_TEXT, "S"), {BYTES, BYTES_CZ}},
    {FIELD_OF(ABO_FOUND_TEXT, "KEP"), {BYTES ", one or more, the first no space", BYTES_CZ ", aspoň jeden, první není mezera"}},
    {FIELD_OF(ABO_FOUND_TEXT, "C"),
     {"1 to 10 digits, or " BYTES ", the first no space", "1 až 10 číslic nebo " BYTES_CZ ", první není mezera"}},
#undef FIELD_OF
    {ABO_CAUSE_CLOSING, ABO_FOUND_GROUP_END, ANY, "CE", {"3 + or 3+", "3 + nebo 3+"}},
    {ABO_CAUSE_CLOSING, ABO_FOUND_GROUP_END, ANY, "KSP", {"3 +", "3 +"}},
    {ABO_CAUSE_CLOSING, ABO_FOUND_FILE_END, ANY, "CE", {"5 + or 5+", "5 + nebo 5+"}},
    {ABO_CAUSE_CLOSING, ABO_FOUND_FILE_END, ANY, "KSP", {"5 +", "5 +"}},
    {ABO_CAUSE_COLLECTION_EARLY, ABO_FOUND_BANK, 0, EVERY, {"not before", "ne dříve než"}},
    {ABO_CAUSE_COLLECTION_EARLY, ABO_FOUND_BANK, ANY, EVERY, {"after", "po"}},
};

/* A field that no sheet has there, or no sheet that is known, has no spelling. */
static const char *spelling_of(uint64_t language, const struct abo_finding *f, uint64_t sheet)
{
    static const struct both none = {"what the sheet says", "co stanoví list"};
    const struct abo_sheet_words *words = abo_say_sheet(sheet);
    for (size_t i = 0; words != NULL && i < COUNT_OF(spelled); i++)
        if (spelled[i].cause == f->cause && spelled[i].field == f->field && (spelled[i].most == ANY || spelled[i].most == f->most) &&
            strchr(spelled[i].sheets, words->letter) != NULL)
            return in(language, &spelled[i].words);
    return in(language, &none);
}

/* ---- putting down: what does not fit is only counted ---- */

struct pen {
    uint64_t language;
    char *out;
    size_t room, len;
};

static void put_byte(struct pen *p, char byte)
{
    if (p->len < p->room)
        p->out[p->len] = byte;
    p->len++;
}

static void put(struct pen *p, const char *text)
{
    while (*text != '\0')
        put_byte(p, *text++);
}

static void put_words(struct pen *p, const struct both *words)
{
    put(p, in(p->language, words));
}

/* With leading zeros up to so many digits. */
static void put_digits(struct pen *p, uint64_t number, size_t least)
{
    char digits[20];
    size_t count = 0;
    for (; number > 0 || count == 0; number /= 10)
        digits[count++] = (char)('0' + number % 10);
    for (size_t i = count; i < least; i++)
        put_byte(p, '0');
    while (count > 0)
        put_byte(p, digits[--count]);
}

static void put_number(struct pen *p, uint64_t number)
{
    put_digits(p, number, 1);
}

static void put_crowns(struct pen *p, uint64_t haler)
{
    put_number(p, haler / 100);
    put_byte(p, p->language == ABO_CZECH ? ',' : '.');
    put_digits(p, haler % 100, 2);
}

/* 2018-01-02, or 2. 1. 2018. */
static void put_day(struct pen *p, uint64_t day)
{
    const uint64_t year = day / 10000, month = day / 100 % 100, number = day % 100;
    bool czech = p->language == ABO_CZECH;
    if (czech)
        put_number(p, number);
    else
        put_digits(p, year, 4);
    put(p, czech ? ". " : "-");
    put_digits(p, month, czech ? 1 : 2);
    put(p, czech ? ". " : "-");
    put_digits(p, czech ? year : number, czech ? 1 : 2);
}

/* The whole text, or the empty one where there is no room for it. */
static size_t end_of(struct pen *p)
{
    if (p->room > 0)
        p->out[p->len < p->room ? p->len : 0] = '\0';
    return p->len;
}

/* ---- what was found ---- */

enum { MOST_QUOTED = 60 };

/* A byte that could mislead a reader or a terminal goes by its number. */
static void put_quoted_byte(struct pen *p, uint8_t byte)
{
    static const char hex[] = "0123456789ABCDEF";
    if (byte >= 32 && byte <= 126 && byte != '"' && byte != '\\') {
        put_byte(p, (char)byte);
        return;
    }
    put(p, "\\x");
    put_byte(p, hex[byte >> 4]);
    put_byte(p, hex[byte & 15]);
}

static void put_quoted(struct pen *p, const uint8_t *bytes, uint64_t len)
{
    static const struct both first = {", the first ", ", prvních "}, of = {" of ", " z "}, tail = {" bytes", " bajtů"};
    put_byte(p, '"');
    for (size_t i = 0; i < len && i < MOST_QUOTED; i++)
        put_quoted_byte(p, bytes[i]);
    put_byte(p, '"');
    if (len <= MOST_QUOTED)
        return;
    put_words(p, &first);
    put_number(p, MOST_QUOTED);
    put_words(p, &of);
    put_number(p, len);
    put_words(p, &tail);
}

/* A finding that does not lie in the file, because it is another one's, has nothing to quote. */
static void put_found(struct pen *p, const struct abo_finding *f, const uint8_t *file, size_t len)
{
    static const struct both found = {"; found ", "; nalezeno: "}, end = {"the end of the file", "konec souboru"},
                             nothing = {"nothing", "nic"};
    bool inside = f->byte <= len && f->length <= len - f->byte;
    put_words(p, &found);
    if (f->number == ABO_BAD_ORDER && f->byte == len)
        put_words(p, &end);
    else if (f->length == 0 || !inside)
        put_words(p, &nothing);
    else
        put_quoted(p, file + f->byte, f->length);
}

/* ---- what is allowed ---- */

static void put_field(struct pen *p, uint64_t field)
{
    static const struct both unknown = {"field ", "pole "};
    const char *noun = abo_tell_field(p->language, field);
    if (noun != NULL) {
        put(p, noun);
        return;
    }
    put_words(p, &unknown);
    put_number(p, field);
}

struct meant {
    const struct abo_finding *f;
    uint64_t sheet, today;
};

static void put_range(struct pen *p, const struct abo_finding *f)
{
    static const struct both to = {" to ", " až "};
    put_number(p, f->least);
    if (f->least == f->most)
        return;
    put_words(p, &to);
    put_number(p, f->most);
}

/* The lowest free number of a day, if there is one. */
static void put_free(struct pen *p, uint64_t lowest)
{
    static const struct both one = {"the lowest free being ", "nejníže "}, none = {"but none is left", "ale žádné už nezbývají"};
    if (lowest >= ABO_REGISTER_NUMBERS) {
        put_words(p, &none);
        return;
    }
    put_words(p, &one);
    put_digits(p, lowest, 3);
}

static bool is_word(const char *word, size_t len, const char *wanted)
{
    return strlen(wanted) == len && memcmp(word, wanted, len) == 0;
}

/* A number by what stands behind `least` or `most`: how many digits, or crowns, or a day, or nothing. */
static void put_formed(struct pen *p, uint64_t number, const char *form)
{
    if (strncmp(form, " crowns", 7) == 0)
        put_crowns(p, number);
    else if (strncmp(form, " day", 4) == 0)
        put_day(p, number);
    else
        put_digits(p, number, *form == ' ' ? (size_t)(form[1] - '0') : 1);
}

/* What stands in braces.  A word that is none is a mistake of the tables, and shows as empty braces. */
static void put_meant(struct pen *p, const struct meant *m, const char *word, size_t len)
{
    if (is_word(word, len, "spelled"))
        put(p, spelling_of(p->language, m->f, m->sheet));
    else if (is_word(word, len, "range"))
        put_range(p, m->f);
    else if (is_word(word, len, "free"))
        put_free(p, m->f->least);
    else if (is_word(word, len, "today"))
        put_day(p, m->today);
    else if (is_word(word, len, "field"))
        put_field(p, m->f->field);
    else if (strncmp(word, "least", 5) == 0)
        put_formed(p, m->f->least, word + 5);
    else if (strncmp(word, "most", 4) == 0)
        put_formed(p, m->f->most, word + 4);
    else
        put(p, "{}");
}

static void put_filled(struct pen *p, const struct meant *m, const char *text)
{
    for (; *text != '\0'; text++) {
        const char *end = *text == '{' ? strchr(text, '}') : NULL;
        if (end == NULL) {
            put_byte(p, *text);
            continue;
        }
        put_meant(p, m, text + 1, (size_t)(end - text - 1));
        text = end;
    }
}

/* ---- what a register refuses ---- */

/* How many bytes there are from a place to the next space or the line's end; no more than `most`. */
static uint64_t bytes_found(const uint8_t *file, size_t len, uint64_t byte, uint64_t most)
{
    uint64_t count = 0;
    while (count < most && byte < len && count < len - byte && memchr(" \r\n", file[byte + count], 3) == NULL)
        count++;
    return count;
}

/* The date of a register is its first word, with the lowest byte first. */
static uint64_t date_of(const uint8_t *reg)
{
    uint64_t date = 0;
    for (size_t i = 8; i > 0; i--)
        date = date << 8 | reg[i - 1];
    return date;
}

static void find_register(struct abo_finding *f, const uint8_t *reg, size_t reg_len)
{
    bool laid = abo_register_lowest(reg, reg_len).number == ABO_ACCEPTED;
    f->cause = laid ? ABO_CAUSE_REGISTER_DATE : ABO_CAUSE_REGISTER_MALFORMED;
    f->field = ABO_FOUND_DATE;
    f->least = f->most = laid ? date_of(reg) : 0;
}

int abo_tell_registered(const struct abo_answer *a, const uint8_t *file, size_t len, const uint8_t *reg, size_t reg_len,
                        struct abo_finding *f)
{
    enum { DIGITS = 6 }; /* of a number, and of a date in the first line */
    struct abo_finding found = {a->number, ABO_CAUSE_NUMBER_TAKEN, a->line, a->byte, 0, ABO_FOUND_NUMBER, 0, ABO_REGISTER_NUMBERS - 1};
    if (a->number != ABO_NUMBER_USED && a->number != ABO_BAD_REGISTER)
        return 0;
    found.length = bytes_found(file, len, a->byte, DIGITS);
    if (a->number == ABO_BAD_REGISTER)
        find_register(&found, reg, reg_len);
    else
        found.least = abo_register_lowest(reg, reg_len).value;
    *f = found;
    return 1;
}

/* ---- sentences ---- */

static void put_reason(struct pen *p, const struct meant *m, const uint8_t *file, size_t len)
{
    static const struct both allowed = {"; allowed: ", "; dovoleno: "}, unknown = {"cause ", "příčina "};
    const struct cause_words *words = words_of_cause(m->f->cause);
    put_field(p, m->f->field);
    put(p, ": ");
    if (words != NULL) {
        put_words(p, &words->reason);
    } else {
        put_words(p, &unknown);
        put_number(p, m->f->cause);
    }
    put_found(p, m->f, file, len);
    if (words == NULL)
        return;
    if (m->f->number == 0)
        put(p, "; ");
    else
        put_words(p, &allowed);
    put_filled(p, m, in(p->language, &words->allowed));
}

static void put_in_brackets(struct pen *p, uint64_t number)
{
    put(p, " (");
    put_number(p, number);
    put(p, ")");
}

size_t abo_tell_reason(uint64_t language, const struct abo_finding *f, const uint8_t *file, size_t len,
                       uint64_t sheet, uint64_t today, char *out, size_t out_len)
{
    struct pen p = {language, out, out_len, 0};
    const struct meant m = {f, sheet, today};
    put_reason(&p, &m, file, len);
    return end_of(&p);
}

size_t abo_tell_finding(uint64_t language, const struct abo_finding *f, const uint8_t *file, size_t len,
                        uint64_t sheet, uint64_t today, char *out, size_t out_len)
{
    static const struct both line = {"Line ", "Řádek "}, byte = {", byte ", ", bajt "};
    struct pen p = {language, out, out_len, 0};
    const struct meant m = {f, sheet, today};
    put_words(&p, &line);
    put_number(&p, f->line);
    put_words(&p, &byte);
    put_number(&p, f->byte);
    put(&p, ", ");
    put_reason(&p, &m, file, len);
    if (f->number != 0)
        put_in_brackets(&p, f->number);
    put_byte(&p, '.');
    return end_of(&p);
}

/* A refused file's one finding always has room, if one has, so 16 is an accepted file's. */
size_t abo_tell_verdict(uint64_t language, const struct abo_list *answer, const struct abo_finding *first,
                        char *out, size_t out_len)
{
    static const struct both accepted = {"accepted, warnings ", "přijato, varování: "}, refused = {"refused", "odmítnuto"},
                             at = {" at line ", " na řádku "};
    struct pen p = {language, out, out_len, 0};
    if (answer->number != ABO_ACCEPTED && answer->number != ABO_NO_ROOM) {
        put(&p, abo_say_number_in(language, answer->number));
        put_in_brackets(&p, answer->number);
    } else if (answer->refused == 0) {
        put_words(&p, &accepted);
        put_number(&p, answer->count + answer->needed);
    } else {
        put_words(&p, &refused);
        put_in_brackets(&p, first->number);
        put_words(&p, &at);
        put_number(&p, first->line);
        put(&p, ", ");
        put_field(&p, first->field);
    }
    return end_of(&p);
}

/* Of a batch 20 and 21, of statements 50 to 53. */
static bool has_place(uint64_t number)
{
    return number == ABO_NOT_A_BATCH || number == ABO_NOT_CARRIED || number >= ABO_BAD_RECORD;
}

/* "Header, the creation date", "Row 3, item, the payee's bank", or "Row 3, item" where the row itself is meant. */
static void put_place(struct pen *p, const struct abo_written *w, uint64_t kind)
{
    static const struct both header = {"Header", "Hlavička"}, row = {"Row ", "Řádek "};
    const char *noun = abo_say_field_in(p->language, kind, w->field);
    if (w->row == 0) {
        put_words(p, &header);
    } else {
        put_words(p, &row);
        put_number(p, w->row);
        if (kind != 0) {
            put(p, ", ");
            put(p, abo_say_row_in(p->language, kind));
        }
    }
    if (noun != NULL && (w->row == 0 || kind != 0)) {
        put(p, ", ");
        put(p, noun);
    }
    put(p, ": ");
}

static const char *allowed_in_row(uint64_t language, const struct abo_written *w, uint64_t kind, uint64_t sheet)
{
    if (w->row != 0 && kind == 0)
        return NULL;
    if (w->number == ABO_NOT_CARRIED)
        return abo_say_carried_in(language, sheet, kind, w->field);
    return w->number == ABO_NOT_A_BATCH || w->number == ABO_BAD_VALUE ? abo_say_allowed_in(language, kind, w->field) : NULL;
}

/* A sentence of its own begins with a capital, and what stands behind a place does not. */
size_t abo_tell_written(uint64_t language, const struct abo_written *w, uint64_t kind, uint64_t sheet,
                        char *out, size_t out_len)
{
    static const struct both allowed = {"; allowed: ", "; dovoleno: "}, refused = {"Refused: ", "Odmítnuto: "};
    struct pen p = {language, out, out_len, 0};
    const char *may = allowed_in_row(language, w, kind, sheet);
    if (has_place(w->number))
        put_place(&p, w, kind);
    else
        put_words(&p, &refused);
    put(&p, abo_say_number_in(language, w->number));
    if (has_place(w->number) && may != NULL) {
        put_words(&p, &allowed);
        put(&p, may);
    }
    put_in_brackets(&p, w->number);
    put_byte(&p, '.');
    return end_of(&p);
}
