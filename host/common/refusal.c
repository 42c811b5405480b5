#include "refusal.h"

#include <inttypes.h>
#include <string.h>

#include <abo_tell.h>
#include "letters.h"
#include "names.h"
#include "place.h"
#include "sheet_and_day.h"

/* A line without its end. */
struct line {
    const uint8_t *bytes;
    size_t len, at; /* `at` is where it starts in the file */
};

static struct line line_of(const struct input *file, uint64_t number)
{
    struct abo_found f = abo_line(file->bytes, file->len, number);
    struct line l = {file->bytes + f.at, (size_t)f.len, (size_t)f.at};
    return l;
}

static bool starts(const struct line *l, const char *with)
{
    size_t len = strlen(with);
    return l->len >= len && memcmp(l->bytes, with, len) == 0;
}

static bool ends_early(const struct input *file, const struct abo_answer *a)
{
    return a->number == ABO_BAD_ORDER && a->byte == file->len;
}

static bool is_line_end(uint8_t byte)
{
    return byte == '\n' || byte == '\r';
}

/* The first sheet whose bank the file's first account file names, if that is known; else 0. */
static uint64_t named_sheet(const struct input *file)
{
    enum { CODE = 4 };
    struct line l = line_of(file, 2);
    const struct abo_sheet_words *words;
    if (!starts(&l, "1 ") || l.len < CODE + 1 || l.bytes[l.len - CODE - 1] != ' ')
        return 0;
    for (uint64_t sheet = 1; (words = abo_say_sheet(sheet)) != NULL; sheet++)
        if (memcmp(l.bytes + l.len - CODE, words->code, CODE) == 0)
            return sheet;
    return 0;
}

/* The letters of a bank's sheets: C or P. */
static void put_letters_of(FILE *to, uint64_t language, const char *code)
{
    const struct abo_sheet_words *words;
    const char *before = "";
    for (uint64_t sheet = 1; (words = abo_say_sheet(sheet)) != NULL; sheet++)
        if (strcmp(words->code, code) == 0) {
            fprintf(to, "%s%c", before, words->letter);
            before = language == ABO_CZECH ? " nebo " : " or ";
        }
}

/* A file may be in order, and only be judged by another bank's rules. */
static void note_other_sheet(FILE *to, uint64_t language, const struct input *file, uint64_t sheet)
{
    uint64_t named = named_sheet(file);
    const struct abo_sheet_words *words = abo_say_sheet(named), *asked = abo_say_sheet(sheet);
    bool czech = language == ABO_CZECH;
    if (words == NULL || asked == NULL || strcmp(words->code, asked->code) == 0)
        return;
    fprintf(to, czech ? "poznámka: soubor uvádí banku %s, %s, jejíž list je " : "note: the file names bank %s, %s, whose sheet is ",
            words->code, abo_say_bank_in(language, named));
    put_letters_of(to, language, words->code);
    fprintf(to, czech ? "; posouzen byl podle listu %c, %s.\n" : "; it was judged by sheet %c, %s.\n", asked->letter,
            abo_say_bank_in(language, sheet));
}

/* The line before one that is not the first. */
static struct line line_before(const struct input *file, const struct line *l)
{
    size_t end = l->at - 1;
    if (end > 0 && file->bytes[end] == '\n' && file->bytes[end - 1] == '\r')
        end--;
    size_t start = end;
    while (start > 0 && !is_line_end(file->bytes[start - 1]))
        start--;
    return (struct line){file->bytes + start, end - start, start};
}

/* The day at the end of a group's line, DDMMRR or RRRRMMDD. */
static uint64_t day_in(const struct line *l)
{
    enum { LONG = 8, CENTURY = 20 };
    uint64_t day = 0;
    size_t start = l->len;
    while (start > 0 && l->bytes[start - 1] != ' ')
        start--;
    for (size_t i = start; i < l->len; i++)
        day = 10 * day + (uint64_t)(l->bytes[i] - '0');
    if (l->len - start == LONG)
        return day;
    return (CENTURY * 100 + day % 100) * 10000 + day / 100 % 100 * 100 + day / 10000;
}

/* The day of a collection is not in the line that is shown. */
static void note_group_day(FILE *to, uint64_t language, const struct input *file, struct line l, uint64_t today,
                           const struct abo_finding *f)
{
    uint64_t number = f->line;
    bool czech = language == ABO_CZECH;
    if (f->cause != ABO_CAUSE_COLLECTION_EARLY && f->cause != ABO_CAUSE_COLLECTION_LATE)
        return;
    for (; number > 1 && !starts(&l, "2 "); number--)
        l = line_before(file, &l);
    fputs(czech ? "poznámka: skupina je splatná " : "note: its group is due ", to);
    put_day_in(to, language, day_in(&l));
    fprintf(to, czech ? " podle řádku %" PRIu64 "; soubor byl posouzen ke dni " : ", by line %" PRIu64 "; the file was judged on ", number);
    put_day_in(to, language, today);
    fputs(".\n", to);
}

size_t utf8_texts(const union abo_row *rows, size_t count, const uint8_t *file)
{
    size_t texts = 0;
    for (size_t i = 0; i < count; i++) {
        const struct abo_item_row *item = &rows[i].item;
        if (rows[i].word[ABO_FIELD_ROW] != ABO_ROW_ITEM)
            continue;
        for (unsigned k = 0; k < ABO_PARTS; k++)
            texts += looks_like_utf8(file + item->part[k].place, (size_t)item->part[k].length);
        texts += looks_like_utf8(file + item->name.place, (size_t)item->name.length);
    }
    return texts;
}

void note_utf8(FILE *to, uint64_t language, size_t texts)
{
    if (texts == 0)
        return;
    if (language == ABO_CZECH)
        fprintf(to,
                "poznámka: textů, které vypadají jako UTF-8: %zu; banka čte Windows-1250 a počítá každý bajt, takže z písmen s háčky a "
                "čárkami by byla dvě jiná.\n",
                texts);
    else
        fprintf(to,
                "note: %zu text%s like UTF-8; the bank reads Windows-1250 and counts each byte, so letters with marks would come out "
                "as two others.\n",
                texts, texts == 1 ? " looks" : "s look");
}

/* "NAME:4:6: refused at line 4, column 6, byte 43: ". */
static void begin_sentence(FILE *to, uint64_t language, const char *name, const struct abo_finding *f, size_t column)
{
    bool czech = language == ABO_CZECH, warns = f->number == ABO_ACCEPTED;
    if (name != NULL) {
        put_name(to, name);
        fprintf(to, ":%" PRIu64 ":%zu: ", f->line, column);
    }
    fputs(czech ? (warns ? "varování" : "odmítnuto") : warns ? "warning" : "refused", to);
    fprintf(to, czech ? " na řádku %" PRIu64 ", ve sloupci %zu, bajt %" PRIu64 ": " : " at line %" PRIu64 ", column %zu, byte %" PRIu64 ": ",
            f->line, column, f->byte);
}

/* What a register refuses is found by it, all else by the library's list. */
static bool find(struct abo_finding *f, const struct input *file, uint64_t sheet, uint64_t today, const struct abo_answer *a,
                 const struct input *reg)
{
    if (reg != NULL && abo_tell_registered(a, file->bytes, file->len, reg->bytes, reg->len, f))
        return true;
    struct abo_list list = abo_findings_of(file->bytes, file->len, sheet, today, f, 1);
    return list.number == ABO_ACCEPTED && list.refused != 0;
}

/* What is found where a file is refused, and its clause.  The library always finds it; without, the number's own words do. */
static struct abo_finding find_reason(char text[ABO_TELL_BYTES], uint64_t language, const struct input *file,
                                      uint64_t sheet, uint64_t today, const struct abo_answer *a, const struct input *reg)
{
    struct abo_finding f;
    if (find(&f, file, sheet, today, a, reg)) {
        abo_tell_reason(language, &f, file->bytes, file->len, sheet, today, text, ABO_TELL_BYTES);
        return f;
    }
    snprintf(text, ABO_TELL_BYTES, "%s", abo_say_number_in(language, a->number));
    return (struct abo_finding){.number = a->number, .line = a->line, .byte = a->byte};
}

static void show_line(FILE *to, uint64_t language, const struct input *file, const struct line *l, const struct abo_answer *a)
{
    if (ends_early(file, a))
        fputs(language == ABO_CZECH ? "  (zde soubor končí)\n  ^\n" : "  (the file ends here)\n  ^\n", to);
    else
        show_place(to, l->bytes, l->len, (size_t)a->byte - l->at, 1);
}

void print_refusal(FILE *to, uint64_t language, const char *name, const struct input *file,
                   uint64_t sheet, uint64_t today, const struct abo_answer *a, const struct input *reg)
{
    struct line l = line_of(file, a->line);
    char text[ABO_TELL_BYTES];
    if (a->line == 0) { /* the sheet or the day, before the file is looked at */
        fprintf(to, language == ABO_CZECH ? "odmítnuto: %s (%" PRIu64 ").\n" : "refused: %s (%" PRIu64 ").\n",
                abo_say_number_in(language, a->number), a->number);
        return;
    }
    struct abo_finding f = find_reason(text, language, file, sheet, today, a, reg);
    begin_sentence(to, language, name, &f, (size_t)a->byte - l.at + 1);
    fprintf(to, "%s (%" PRIu64 ").\n", text, a->number);
    show_line(to, language, file, &l, a);
    note_group_day(to, language, file, l, today, &f);
    note_other_sheet(to, language, file, sheet);
    note_utf8(to, language, looks_like_utf8(l.bytes, l.len));
}

/* Lines are not counted from the file's start, since a file may have a warning in each. */
void print_warning(FILE *to, uint64_t language, const char *name, const struct input *file,
                   uint64_t sheet, uint64_t today, const struct abo_finding *f)
{
    char text[ABO_TELL_BYTES];
    size_t at = (size_t)f->byte, start = at;
    while (start > 0 && !is_line_end(file->bytes[start - 1]))
        start--;
    abo_tell_reason(language, f, file->bytes, file->len, sheet, today, text, sizeof text);
    begin_sentence(to, language, name, f, at - start + 1);
    fprintf(to, "%s.\n", text);
}
