#include "json.h"

#include <inttypes.h>
#include <string.h>

#include <abo_tell.h>
#include "../common/letters.h"
#include "../common/sheet_and_day.h"

/* A letter beyond the first 65,536 is two numbers there. */
static void put_letter(FILE *to, uint32_t letter)
{
    if (letter >= 0x10000) {
        letter -= 0x10000;
        fprintf(to, "\\u%04x\\u%04x", (unsigned)(0xd800 + (letter >> 10)), (unsigned)(0xdc00 + (letter & 0x3ff)));
    } else if (letter < 32 || letter > 126 || letter == '"' || letter == '\\') {
        fprintf(to, "\\u%04x", (unsigned)letter);
    } else {
        fputc((int)letter, to);
    }
}

/* Text of UTF-8, as names and sentences are; a byte that spells no letter becomes U+FFFD. */
static void put_text(FILE *to, const char *text)
{
    const uint8_t *bytes = (const uint8_t *)text;
    size_t left = strlen(text), length;
    fputc('"', to);
    for (; left > 0; bytes += length, left -= length) {
        uint32_t letter = NO_LETTER;
        length = take_utf8(bytes, left, &letter);
        put_letter(to, length > 0 ? letter : NO_LETTER);
        length += length == 0;
    }
    fputc('"', to);
}

/* Bytes of a file, each as the letter of its own number, so that a program has them back. */
static void put_bytes(FILE *to, const uint8_t *bytes, size_t len)
{
    fputc('"', to);
    for (size_t i = 0; i < len; i++)
        put_letter(to, bytes[i]);
    fputc('"', to);
}

static void put_number(FILE *to, const char *name, uint64_t number)
{
    fprintf(to, ",\"%s\":%" PRIu64, name, number);
}

/* A number without a name has null. */
static void put_name_of(FILE *to, const char *name, const char *constant)
{
    fprintf(to, ",\"%s\":", name);
    if (constant != NULL)
        put_text(to, constant);
    else
        fputs("null", to);
}

static void put_finding(FILE *to, const struct job *j, const struct abo_finding *f)
{
    char sentence[ABO_TELL_BYTES];
    abo_tell_finding(j->ask->language, f, j->file.bytes, j->file.len, j->ask->sheet, j->ask->today, sentence, sizeof sentence);
    fprintf(to, "{\"warning\":%s", f->number == ABO_ACCEPTED ? "true" : "false");
    put_number(to, "number", f->number);
    put_name_of(to, "number_name", f->number != ABO_ACCEPTED ? abo_say_constant(f->number) : NULL);
    put_number(to, "cause", f->cause);
    put_name_of(to, "cause_name", abo_tell_cause_constant(f->cause));
    put_number(to, "field", f->field);
    put_name_of(to, "field_name", abo_tell_field_constant(f->field));
    put_number(to, "line", f->line);
    put_number(to, "byte", f->byte);
    put_number(to, "length", f->length);
    put_number(to, "least", f->least);
    put_number(to, "most", f->most);
    fputs(",\"found\":", to);
    put_bytes(to, j->file.bytes + f->byte, (size_t)f->length);
    fputs(",\"sentence\":", to);
    put_text(to, sentence);
    fputc('}', to);
}

static void put_sheets(FILE *to, uint64_t sheets)
{
    const struct abo_sheet_words *words;
    const char *before = "";
    for (uint64_t sheet = 1; (words = abo_say_sheet(sheet)) != NULL; sheet++) {
        fprintf(to, "%s\"%c\":%s", before, words->letter, sheets >> (sheet - 1) & 1 ? "true" : "false");
        before = ",";
    }
}

void print_json(FILE *to, const struct job *j)
{
    fputs("{\"file\":", to);
    put_text(to, j->name);
    fprintf(to, ",\"sheet\":\"%c\",\"day\":\"", abo_say_sheet(j->ask->sheet)->letter);
    put_day(to, j->ask->today);
    fprintf(to, "\",\"accepted\":%s", j->list.refused == 0 ? "true" : "false");
    put_number(to, "number", j->answer.number);
    put_name_of(to, "number_name", abo_say_constant(j->answer.number));
    put_number(to, "rows", j->answer.rows);
    put_number(to, "warnings", j->answer.warnings);
    if (j->ask->register_name != NULL) {
        fputs(",\"register\":", to);
        put_text(to, j->ask->register_name);
        put_number(to, "marked", j->marks);
    }
    fputs(",\"findings\":[", to);
    for (uint64_t i = 0; i < j->list.count; i++) {
        if (i > 0)
            fputc(',', to);
        put_finding(to, j, &j->findings[i]);
    }
    fputs("],\"sheets\":{", to);
    put_sheets(to, j->list.sheets);
    fputs("}}\n", to);
}
