#include "rewriting.h"

#include <stdio.h>
#include <stdlib.h>
#include <string.h>

#include <abo_tell.h>
#include "../common/names.h"
#include "../common/output.h"
#include "../common/sums.h"

static bool in_czech(const struct job *j)
{
    return j->ask->language == ABO_CZECH;
}

static void begin_sentence(const struct job *j)
{
    fputs("abo: ", stderr);
    if (strcmp(j->name, "-") == 0)
        fputs(in_czech(j) ? "standardní vstup" : "standard input", stderr);
    else
        put_name(stderr, j->name);
}

/* The file has things that its rewriting would not have: a longer text, another total, a priority digit. */
static enum status refuse_warnings(const struct job *j)
{
    begin_sentence(j);
    fputs(in_czech(j) ? " je přijat, má ale " : " is accepted with ", stderr);
    print_warnings(stderr, j->ask->language, j->answer.warnings);
    fputs(in_czech(j) ? ", takže by přepsaný soubor nebyl tentýž: příliš dlouhé texty by se zkrátily a uvedené součty by nahradily "
                        "součty položek. Nic nebylo zapsáno. S --accept-warnings se zapíše i tak.\n"
                      : ", so its rewriting would not be the same file: texts that are too long would be cut, and totals become the sums. "
                        "Nothing was written. --accept-warnings writes it all the same.\n",
          stderr);
    return REFUSED;
}

static void tell_warnings(const struct job *j)
{
    if (j->answer.warnings == 0)
        return;
    begin_sentence(j);
    fputs(in_czech(j) ? " byl přijat a má " : " was accepted with ", stderr);
    print_warnings(stderr, j->ask->language, j->answer.warnings);
    fputs(in_czech(j) ? "; zapsáno je to, co z něj udělá banka.\n" : "; what is written is what the bank makes of it.\n", stderr);
}

/* Is there anything in the first line behind what the sheet reads of it?  The zeros there are what is written, too. */
static bool more_in_first_line(const struct job *j)
{
    enum { MARK = 4, FIELDS = 46 }; /* `UHL1` alone on C; with date, name, client number and interval elsewhere */
    size_t len = (size_t)abo_line(j->file.bytes, j->file.len, 1).len;
    bool bare = j->ask->sheet == ABO_SHEET_C;
    for (size_t i = bare ? MARK : FIELDS; i < len; i++)
        if (bare || j->file.bytes[i] != '0')
            return true;
    return false;
}

/* Does an account file's line end with another bank than the sheet's?  C takes any, and writes its own. */
static bool other_bank(const struct job *j)
{
    const char *code = abo_say_sheet(j->ask->sheet)->code;
    size_t len = strlen(code), at = 0;
    for (;;) {
        const uint8_t *start = j->file.bytes + at;
        size_t left = j->file.len - at, end = 0;
        while (end < left && start[end] != '\r' && start[end] != '\n')
            end++;
        if (end > len + 2 && memcmp(start, "1 ", 2) == 0 && memcmp(start + end - len, code, len) != 0)
            return true;
        if (end == left)
            return false;
        at += end + 1;
    }
}

/* What the sheet does not read has no place in a batch, so the rewriting does not have it. */
static void tell_not_kept(const struct job *j)
{
    if (more_in_first_line(j))
        fputs(in_czech(j) ? "abo: poznámka: z prvního řádku se nezachová to, co list nečte.\n"
                          : "abo: note: of the first line, what the sheet does not read is not kept.\n",
              stderr);
    if (other_bank(j))
        fprintf(stderr,
                in_czech(j) ? "abo: poznámka: bankou účetních souborů se stane banka listu, %s.\n"
                            : "abo: note: the account files' bank becomes the sheet's, %s.\n",
                abo_say_sheet(j->ask->sheet)->code);
}

static struct abo_written write_into(const struct job *j, uint8_t *out, size_t len)
{
    return abo_write_rows(j->rows, (size_t)j->answer.rows, j->file.bytes, j->file.len, &j->answer.header, j->ask->sheet,
                          j->ask->today, out, len);
}

static enum status trouble(const char *sentence)
{
    fprintf(stderr, "abo: %s\n", sentence);
    return TROUBLE;
}

/* What was read can be written on the same sheet and day; if it cannot, the row and the field say why. */
static enum status not_written(const struct job *j, const struct abo_written *w)
{
    char sentence[ABO_TELL_BYTES];
    uint64_t kind = w->row > 0 && w->row <= j->answer.rows ? j->rows[w->row - 1].word[ABO_FIELD_ROW] : 0;
    abo_tell_written(j->ask->language, w, kind, j->ask->sheet, sentence, sizeof sentence);
    trouble("The library does not write what it has read.");
    return trouble(sentence);
}

/* The first call gives 16, the second 0. */
enum status rewrite_accepted(const struct job *j)
{
    if (j->answer.warnings > 0 && !j->ask->accept_warnings)
        return refuse_warnings(j);
    struct abo_written w = write_into(j, NULL, 0);
    if (w.number != ABO_NO_ROOM)
        return not_written(j, &w);
    uint8_t *out = w.bytes <= SIZE_MAX ? malloc((size_t)w.bytes) : NULL;
    if (out == NULL)
        return trouble("There is not enough memory for the canonical file.");
    w = write_into(j, out, (size_t)w.bytes);
    enum status status = TROUBLE;
    if (w.number != ABO_ACCEPTED)
        status = not_written(j, &w);
    else if (write_whole("abo", j->ask->out, out, (size_t)w.bytes)) {
        status = ACCEPTED;
        tell_warnings(j);
        tell_not_kept(j);
    }
    free(out);
    return status;
}
