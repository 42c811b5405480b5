/* One table for each thing that has words: numbers, rows, fields, records, codes, sheets, kinds of account files.  docs/NUMBERS.md and docs/RULES.md
   say all of it at length. */
#include "abo_say.h"

#include <stdbool.h>

#define COUNT_OF(table) (sizeof(table) / sizeof *(table))

/* A text in each language: one that has no Czech is no initializer that a compiler lets pass. */
struct both {
    const char *english, *czech;
};

static const char *in(uint64_t language, const struct both *words)
{
    return language == ABO_CZECH ? words->czech : words->english;
}

struct number_words {
    const char *constant;
    struct both says;
};

#define NUMBER(name, english, czech) [name] = {#name, {english, czech}}

static const struct number_words numbers[] = {
    NUMBER(ABO_ACCEPTED, "it is accepted", "je přijato"),
    NUMBER(ABO_BAD_SHEET, "the sheet is none of K, S, C, E and P", "list není žádný z K, S, C, E a P"),
    NUMBER(ABO_BAD_TODAY, "the day is no real day of 2000 to 2099", "den není skutečným dnem let 2000 až 2099"),
    NUMBER(ABO_BAD_ORDER, "another kind of line is due here, or the end of the file",
           "na tomto místě má být jiný druh řádku, nebo konec souboru"),
    NUMBER(ABO_BAD_FIELD, "the bytes or the length of this field are wrong, or a divider is",
           "bajty nebo délka tohoto pole jsou chybné, nebo je chybný oddělovač"),
    NUMBER(ABO_BAD_ACCOUNT, "this is no valid account number", "toto není platné číslo účtu"),
    NUMBER(ABO_BAD_AMOUNT, "the amount is zero or over the sheet's limit", "částka je nulová, nebo překračuje limit listu"),
    NUMBER(ABO_BAD_KIND, "this kind of account file is not on the sheet", "tento druh účetního souboru na listu není"),
    NUMBER(ABO_BAD_PAYER_BANK, "the payer's bank is not the sheet's", "banka plátce není bankou listu"),
    NUMBER(ABO_BAD_NUMBER,
           "the interval's start is above its end, or the number's first three digits are outside the interval or were used before",
           "začátek intervalu je za jeho koncem, nebo první tři číslice čísla leží mimo interval nebo už byly použity"),
    NUMBER(ABO_BAD_TOTAL, "the group's total is not the sum of its items, or that sum has more than 14 digits",
           "součet skupiny se nerovná součtu jejích položek, nebo má tento součet více než 14 číslic"),
    NUMBER(ABO_BAD_DAY,
           "the day is not real, or not among those that the sheet takes; at an item's bank, not among those of a collection from there",
           "den není skutečný, nebo nepatří k těm, které list bere; u banky položky nepatří k těm, kdy lze odtud inkasovat"),
    NUMBER(ABO_BAD_PAYEE_BANK, "the payee's bank is 0000", "banka příjemce je 0000"),
    NUMBER(ABO_BAD_DIGIT, "the ninth or tenth digit from the right is not allowed", "devátá nebo desátá číslice zprava není dovolena"),
    NUMBER(ABO_BAD_TEXT, "the text breaks the sheet's rules on its start, its parts, their length or their bytes",
           "text porušuje pravidla listu o svém začátku, svých částech, jejich délce nebo bajtech"),
    NUMBER(ABO_TOO_MANY, "this is one item or account file more than a file may have",
           "toto je o jednu položku nebo jeden účetní soubor více, než soubor smí mít"),
    NUMBER(ABO_NO_ROOM, "the room that was lent is too small", "půjčené místo je příliš malé"),
    NUMBER(ABO_NOT_A_BATCH, "this is no batch on any sheet", "toto není dávka podle žádného listu"),
    NUMBER(ABO_NOT_CARRIED, "no file of this sheet can carry it", "žádný soubor tohoto listu to nemůže obsahovat"),
    NUMBER(ABO_NUMBER_USED, "the first three digits of the number were used that day",
           "první tři číslice čísla už byly toho dne použity"),
    NUMBER(ABO_BAD_REGISTER, "the register is for another date than the file's, or is not laid out as one",
           "registr je na jiné datum než soubor, nebo nemá podobu registru"),
    NUMBER(ABO_NOT_TAKEN, "the number is not marked in the register, or is above 999",
           "číslo není v registru označeno, nebo je větší než 999"),
    NUMBER(ABO_BAD_RECORD,
           "a record of 128 bytes and CR LF is due here that begins with 074, or with 075 below the head of its statement",
           "na tomto místě má být záznam o 128 bajtech a CR LF, který začíná 074, nebo pod hlavičkou svého výpisu 075"),
    NUMBER(ABO_BAD_VALUE, "these are not the digits, the sign or the code that the field has, or the number has too many digits",
           "toto nejsou číslice, znaménko nebo kód, které pole má mít, nebo má číslo příliš mnoho číslic"),
    NUMBER(ABO_BAD_TURNOVER, "the turnover is not what the statement's movements add up to", "obrat se nerovná součtu pohybů výpisu"),
    NUMBER(ABO_BAD_BALANCE, "the new balance is not the old one less the debit turnover plus the credit turnover",
           "nový zůstatek není starý zůstatek bez debetního obratu a s kreditním obratem"),
};

const char *abo_say_number_in(uint64_t language, uint64_t number)
{
    static const struct both none = {"the library gives a number that has no words here",
                                     "knihovna vrací číslo, které tu nemá slova"};
    bool known = number < COUNT_OF(numbers) && numbers[number].constant != NULL;
    return in(language, known ? &numbers[number].says : &none);
}

const char *abo_say_constant(uint64_t number)
{
    return number < COUNT_OF(numbers) ? numbers[number].constant : NULL;
}

const char *abo_say_row_in(uint64_t language, uint64_t row)
{
    static const struct both words[] = {
        [0] = {"header", "hlavička"},
        [ABO_ROW_FILE] = {"account file", "účetní soubor"},
        [ABO_ROW_GROUP] = {"group", "skupina"},
        [ABO_ROW_ITEM] = {"item", "položka"},
        [ABO_STATEMENT_HEAD] = {"head of a statement", "hlavička výpisu"},
        [ABO_STATEMENT_MOVEMENT] = {"movement", "pohyb"},
    };
    static const struct both none = {"row of no known kind", "řádek neznámého druhu"};
    return in(language, row < COUNT_OF(words) && words[row].english != NULL ? &words[row] : &none);
}

struct field_words {
    struct both noun, allowed;
};

/* what an account must be, the same wherever one stands */
#define AN_ACCOUNT                                                                                                          \
    "a prefix of at most 6 digits and a base of at most 10, the weighted digits of each adding up to a multiple of 11, and " \
    "two digits or more of the base not zero"
#define AN_ACCOUNT_CZ                                                                                                       \
    "předčíslí nejvýše o 6 číslicích a základ nejvýše o 10, vážený součet číslic každého z nich dělitelný 11 a aspoň dvě "  \
    "číslice základu nenulové"
#define A_TEXT "bytes 32 to 255 except 127, at most 35 of them"
#define A_TEXT_CZ "bajty 32 až 255 kromě 127, nejvýše 35"
#define A_PART {A_TEXT ", and no bar", A_TEXT_CZ ", a žádná svislá čára"}
#define A_DAY {"a real day of 2000 to 2099", "skutečný den let 2000 až 2099"}
#define AT_MOST(digits) {"at most " digits " digits", "nejvýše " digits " číslic"}
#define A_SERIES {"0 to 999", "0 až 999"}

static const struct field_words fields[][ABO_ROW_WORDS] = {
    [0] = {[ABO_HEADER_DATE] = {{"the creation date", "datum vytvoření"}, A_DAY},
           [ABO_HEADER_NAME] = {{"the firm's name", "název firmy"},
                                {"exactly 20 bytes with the spaces that fill it up, each 32 to 255 except 127",
                                 "přesně 20 bajtů i s mezerami, které ho doplňují, každý 32 až 255 kromě 127"}},
           [ABO_HEADER_CLIENT] = {{"the client number", "číslo klienta"}, AT_MOST("10")},
           [ABO_HEADER_FROM] = {{"the interval's start", "začátek intervalu"}, A_SERIES},
           [ABO_HEADER_TO] = {{"the interval's end", "konec intervalu"}, A_SERIES}},
    [ABO_ROW_FILE] = {[ABO_FILE_KIND] = {{"the account file's kind", "druh účetního souboru"}, {"1501 to 1504", "1501 až 1504"}},
                      [ABO_FILE_NUMBER] = {{"the account file's number", "číslo účetního souboru"}, AT_MOST("6")}},
    [ABO_ROW_GROUP] = {[ABO_GROUP_DUE] = {{"the due date", "datum splatnosti"}, A_DAY},
                       [ABO_GROUP_PAYER] = {{"the payer's account", "účet plátce"},
                                            {AN_ACCOUNT "; or none, and then each item has its own",
                                             AN_ACCOUNT_CZ "; nebo žádný, a pak má každá položka svůj"}}},
    [ABO_ROW_ITEM] = {[ABO_ITEM_PAYER] = {{"the payer's account", "účet plátce"},
                                          {AN_ACCOUNT ", where the group has none; else none",
                                           AN_ACCOUNT_CZ ", pokud ho nemá skupina; jinak žádný"}},
                      [ABO_ITEM_PAYEE] = {{"the payee's account", "účet příjemce"}, {AN_ACCOUNT, AN_ACCOUNT_CZ}},
                      [ABO_ITEM_BANK] = {{"the payee's bank", "banka příjemce"}, {"0001 to 9999", "0001 až 9999"}},
                      [ABO_ITEM_AMOUNT] = {{"the amount", "částka"},
                                           {"0.01 to 999999999999.99 crowns, and no more than that for the group's items together",
                                            "0,01 až 999999999999,99 Kč, a ne více za položky skupiny dohromady"}},
                      [ABO_ITEM_VARIABLE] = {{"the variable symbol", "variabilní symbol"}, AT_MOST("10")},
                      [ABO_ITEM_SPECIFIC] = {{"the specific symbol", "specifický symbol"}, AT_MOST("10")},
                      [ABO_ITEM_CONSTANT] = {{"the constant symbol", "konstantní symbol"},
                                             {"at most 4 digits", "nejvýše 4 číslice"}},
                      [ABO_ITEM_PRIORITY] = {{"the priority", "priorita"}, {"3 to 9", "3 až 9"}},
                      [ABO_ITEM_PART_1] = {{"the first part of the message", "první část zprávy"}, A_PART},
                      [ABO_ITEM_PART_2] = {{"the second part of the message", "druhá část zprávy"}, A_PART},
                      [ABO_ITEM_PART_3] = {{"the third part of the message", "třetí část zprávy"}, A_PART},
                      [ABO_ITEM_PART_4] = {{"the fourth part of the message", "čtvrtá část zprávy"}, A_PART},
                      [ABO_ITEM_NAME] = {{"the name", "jméno"}, {A_TEXT, A_TEXT_CZ}},
                      [ABO_ITEM_REFERENCE] = {{"the reference", "referenční číslo"}, {"0 to 4294967295", "0 až 4294967295"}}},
};

#define A_SUM                                                                                                               \
    {"at most 999999999999.99 crowns, above zero or below", "nejvýše 999999999999,99 Kč, nad nulou nebo pod ní"}

static const struct field_words head_fields[ABO_STATEMENT_WORDS] = {
    [ABO_HEAD_PREFIX] = {{"the account's prefix", "předčíslí účtu"}, AT_MOST("6")},
    [ABO_HEAD_BASE] = {{"the account's base", "základ čísla účtu"}, AT_MOST("10")},
    [ABO_HEAD_OLD_BALANCE] = {{"the old balance", "starý zůstatek"}, A_SUM},
    [ABO_HEAD_NEW_BALANCE] = {{"the new balance", "nový zůstatek"}, A_SUM},
    [ABO_HEAD_DEBIT] = {{"the debit turnover", "debetní obrat"}, A_SUM},
    [ABO_HEAD_CREDIT] = {{"the credit turnover", "kreditní obrat"}, A_SUM},
};

static const struct field_words movement_fields[ABO_STATEMENT_WORDS] = {
    [ABO_MOVEMENT_PREFIX] = {{"the account's prefix", "předčíslí účtu"}, AT_MOST("6")},
    [ABO_MOVEMENT_BASE] = {{"the account's base", "základ čísla účtu"}, AT_MOST("10")},
    [ABO_MOVEMENT_OTHER_PREFIX] = {{"the other account's prefix", "předčíslí protiúčtu"}, AT_MOST("6")},
    [ABO_MOVEMENT_OTHER_BASE] = {{"the other account's base", "základ čísla protiúčtu"}, AT_MOST("10")},
    [ABO_MOVEMENT_AMOUNT] = {{"the amount", "částka"}, {"at most 9999999999.99 crowns", "nejvýše 9999999999,99 Kč"}},
    [ABO_MOVEMENT_CODE] = {{"the posting code", "kód účtování"}, {"1, 2, 4 or 5", "1, 2, 4 nebo 5"}},
    [ABO_MOVEMENT_VARIABLE] = {{"the variable symbol", "variabilní symbol"}, AT_MOST("10")},
};

static const struct field_words *words_of(uint64_t row, uint64_t field)
{
    static const struct field_words none = {{NULL, NULL}, {NULL, NULL}};
    if (row < COUNT_OF(fields) && field < ABO_ROW_WORDS)
        return &fields[row][field];
    if (row == ABO_STATEMENT_HEAD && field < ABO_STATEMENT_WORDS)
        return &head_fields[field];
    return row == ABO_STATEMENT_MOVEMENT && field < ABO_STATEMENT_WORDS ? &movement_fields[field] : &none;
}

const char *abo_say_field_in(uint64_t language, uint64_t row, uint64_t field)
{
    return in(language, &words_of(row, field)->noun);
}

const char *abo_say_allowed_in(uint64_t language, uint64_t row, uint64_t field)
{
    return in(language, &words_of(row, field)->allowed);
}

/* What the sheets of these letters narrow, in the fields `from` to `to` of a row. */
static const struct {
    const char *sheets;
    uint64_t row, from, to;
    struct both carried;
} narrowed[] = {
    {"K", 0, ABO_HEADER_TO, ABO_HEADER_TO, {"not below the interval's start", "ne méně než začátek intervalu"}},
    {"KE", ABO_ROW_FILE, ABO_FILE_KIND, ABO_FILE_KIND, {"1501 alone", "jen 1501"}},
    {"SP", ABO_ROW_FILE, ABO_FILE_KIND, ABO_FILE_KIND, {"1501 or 1502", "1501 nebo 1502"}},
    {"K", ABO_ROW_FILE, ABO_FILE_NUMBER, ABO_FILE_NUMBER,
     {"a number whose first three of six digits lie in the header's interval and are unlike those of any account file before",
      "číslo, jehož první tři ze šesti číslic leží v intervalu hlavičky a nemá je žádný účetní soubor před ním"}},
    {"K", ABO_ROW_GROUP, ABO_GROUP_DUE, ABO_GROUP_DUE,
     {"a day from today to 364 days ahead", "den od dneška do 364 dnů dopředu"}},
    {"S", ABO_ROW_GROUP, ABO_GROUP_DUE, ABO_GROUP_DUE, {"a day that is not before today", "den, který není před dneškem"}},
    {"CP", ABO_ROW_GROUP, ABO_GROUP_DUE, ABO_GROUP_DUE, {"a day at most 365 days ahead", "den nejvýše 365 dnů dopředu"}},
    {"S", ABO_ROW_ITEM, ABO_FIELD_ROW, ABO_FIELD_ROW, {"at most 1,000 items in a file", "nejvýše 1 000 položek v souboru"}},
    {"CP", ABO_ROW_ITEM, ABO_ITEM_BANK, ABO_ITEM_BANK,
     {"a bank whose collections may be due on the group's day: 0300 from today, any other from tomorrow, each to one month ahead",
      "banka, jejíž inkasa mohou být splatná v den skupiny: 0300 od dneška, jiná od zítřka, obojí do jednoho měsíce dopředu"}},
    {"SE", ABO_ROW_ITEM, ABO_ITEM_AMOUNT, ABO_ITEM_AMOUNT, {"at most 9999999999.99 crowns", "nejvýše 9999999999,99 Kč"}},
    {"SCEP", ABO_ROW_ITEM, ABO_ITEM_PRIORITY, ABO_ITEM_PRIORITY,
     {"5 alone, since the sheet has no place for a priority", "jen 5, protože list nemá pro prioritu místo"}},
    {"S", ABO_ROW_ITEM, ABO_ITEM_PART_2, ABO_ITEM_PART_4,
     {"nothing, since the sheet has one part alone", "nic, protože list má jen jednu část"}},
    {"C", ABO_ROW_ITEM, ABO_ITEM_PART_1, ABO_ITEM_PART_4,
     {"a text without ` NP:`, since the bank would read what follows as a name",
      "text bez ` NP:`, protože co za tím následuje, by banka četla jako jméno"}},
    {"P", ABO_ROW_ITEM, ABO_ITEM_PART_1, ABO_ITEM_PART_4, {"a text without # and ~", "text bez # a ~"}},
    {"KSEP", ABO_ROW_ITEM, ABO_ITEM_NAME, ABO_ITEM_NAME,
     {"nothing, since the sheet has no place for a name", "nic, protože list nemá pro jméno místo"}},
};

const char *abo_say_carried_in(uint64_t language, uint64_t sheet, uint64_t row, uint64_t field)
{
    const struct abo_sheet_words *words = abo_say_sheet(sheet);
    for (size_t i = 0; words != NULL && i < COUNT_OF(narrowed); i++)
        if (narrowed[i].row == row && narrowed[i].from <= field && field <= narrowed[i].to)
            for (const char *letter = narrowed[i].sheets; *letter != '\0'; letter++)
                if (*letter == words->letter)
                    return in(language, &narrowed[i].carried);
    return NULL;
}

/* Czech counts by one, two to four, and others. */
static const struct {
    struct both one, few, many;
} items[] = {
    {{"payment", "platba"}, {"payments", "platby"}, {"payments", "plateb"}},
    {{"collection", "inkaso"}, {"collections", "inkasa"}, {"collections", "inkas"}},
    {{"priority payment", "prioritní platba"}, {"priority payments", "prioritní platby"}, {"priority payments", "prioritních plateb"}},
    {{"instant payment", "okamžitá platba"}, {"instant payments", "okamžité platby"}, {"instant payments", "okamžitých plateb"}},
    {{"item", "položka"}, {"items", "položky"}, {"items", "položek"}},
};

const char *abo_say_items_in(uint64_t language, uint64_t kind, uint64_t count)
{
    size_t which = kind >= 1501 && kind <= 1504 ? (size_t)(kind - 1501) : COUNT_OF(items) - 1;
    return in(language, count == 1 ? &items[which].one : count >= 2 && count <= 4 ? &items[which].few : &items[which].many);
}

/* ---- the same in English ---- */

const char *abo_say_number(uint64_t number)
{
    return abo_say_number_in(ABO_ENGLISH, number);
}

const char *abo_say_row(uint64_t row)
{
    return abo_say_row_in(ABO_ENGLISH, row);
}

const char *abo_say_field(uint64_t row, uint64_t field)
{
    return abo_say_field_in(ABO_ENGLISH, row, field);
}

const char *abo_say_allowed(uint64_t row, uint64_t field)
{
    return abo_say_allowed_in(ABO_ENGLISH, row, field);
}

const char *abo_say_carried(uint64_t sheet, uint64_t row, uint64_t field)
{
    return abo_say_carried_in(ABO_ENGLISH, sheet, row, field);
}

const char *abo_say_items(uint64_t kind)
{
    return abo_say_items_in(ABO_ENGLISH, kind, 0);
}

/* ---- statements and sheets ---- */

#define AN_INTERNAL "16 digits in the order of the internal form"
#define A_SUM_FIELD "14 digits"

static const struct abo_record_words head_record[] = {
    {3, 16, "the account", AN_INTERNAL},
    {45, 14, "the old balance", A_SUM_FIELD},
    {59, 1, "the sign of the old balance", "+ or -"},
    {60, 14, "the new balance", A_SUM_FIELD},
    {74, 1, "the sign of the new balance", "+ or -"},
    {75, 14, "the debit turnover", A_SUM_FIELD},
    {89, 1, "the sign of the debit turnover", "0 or -"},
    {90, 14, "the credit turnover", A_SUM_FIELD},
    {104, 1, "the sign of the credit turnover", "0 or -"},
};

static const struct abo_record_words movement_record[] = {
    {3, 16, "the account", AN_INTERNAL},
    {19, 16, "the other account", AN_INTERNAL},
    {48, 12, "the amount", "12 digits"},
    {60, 1, "the posting code", "1, 2, 4 or 5"},
    {61, 10, "the variable symbol", "10 digits"},
};

const struct abo_record_words *abo_say_record(uint64_t row, uint64_t place)
{
    const struct abo_record_words *words = row == ABO_STATEMENT_HEAD ? head_record : movement_record;
    size_t count = row == ABO_STATEMENT_HEAD ? COUNT_OF(head_record) : COUNT_OF(movement_record);
    if (row != ABO_STATEMENT_HEAD && row != ABO_STATEMENT_MOVEMENT)
        return NULL;
    for (size_t i = 0; i < count; i++)
        if (words[i].place == place)
            return &words[i];
    return NULL;
}

const char *abo_say_code(uint64_t code)
{
    static const char *const words[] = {
        [ABO_CODE_DEBIT] = "debit",
        [ABO_CODE_CREDIT] = "credit",
        [ABO_CODE_DEBIT_REVERSED] = "reversed debit",
        [ABO_CODE_CREDIT_REVERSED] = "reversed credit",
    };
    return code < COUNT_OF(words) ? words[code] : NULL;
}

const struct abo_sheet_words *abo_say_sheet(uint64_t sheet)
{
    static const struct abo_sheet_words words[] = {
        [ABO_SHEET_K] = {'K', "8100", "Komerční banka"},
        [ABO_SHEET_S] = {'S', "0800", "Česká spořitelna"},
        [ABO_SHEET_C] = {'C', "0300", "ČSOB"},
        [ABO_SHEET_E] = {'E', "6100", "Equa bank"},
        [ABO_SHEET_P] = {'P', "0300", "ČSOB, previous edition"},
    };
    return sheet < COUNT_OF(words) && words[sheet].code != NULL ? &words[sheet] : NULL;
}

const char *abo_say_bank_in(uint64_t language, uint64_t sheet)
{
    const struct abo_sheet_words *words = abo_say_sheet(sheet);
    if (words == NULL)
        return NULL;
    return language == ABO_CZECH && sheet == ABO_SHEET_P ? "ČSOB, předchozí vydání" : words->bank;
}
