/*
 * Makes a file that is refused in its last line, and has it judged by every
 * known sheet, or what is found in it told or listed on one, to be counted:
 *
 *   passes none|judge|explain|findings SHEET KIND BYTES
 *
 * What is counted is the difference to `none`.  To judge is to read with no
 * room for rows, which ends with the first pass.  SHEET is K, S, C, E or P;
 * host/generate/sized.h names the kinds, of which the last line is taken away.
 */
#include <abo.h>
#include <stdio.h>
#include <stdlib.h>
#include <string.h>

#include "../host/generate/plain.h"
#include "../host/generate/sized.h"

static const char letters[] = "KSCEP";

/* True if the file's own sheet refuses it where the last line would be. */
static bool judge_all(const struct text *file, unsigned own)
{
    bool late = false;
    for (unsigned sheet = 1; sheet <= strlen(letters); sheet++) {
        struct abo_answer a =
            abo_read(file->data, file->len, sheet, PLAIN_TODAY, NULL, 0);
        if (sheet == own)
            late = a.number == 3 && a.byte == file->len;
    }
    return late;
}

static bool explain(const struct text *file, unsigned sheet)
{
    static uint8_t text[ABO_EXPLAIN_BYTES];
    struct abo_text t = abo_explain(file->data, file->len, sheet, PLAIN_TODAY,
                                    text, sizeof text);
    return t.number == ABO_ACCEPTED;
}

static bool list(const struct text *file, unsigned sheet)
{
    struct abo_finding one;
    struct abo_list l = abo_findings(file->data, file->len, sheet, PLAIN_TODAY,
                                     (uint8_t *)&one, sizeof one);
    return l.number == ABO_ACCEPTED && l.refused == 1 && one.number == 3;
}

int main(int argc, char **argv)
{
    const char *at = argc == 5 ? strchr(letters, argv[2][0]) : NULL;
    if (at == NULL || *at == '\0') {
        fputs("passes none|judge|explain|findings SHEET KIND BYTES\n", stderr);
        return 2;
    }
    unsigned sheet = (unsigned)(at - letters) + 1;
    struct sized_file f = {0};
    if (!make_sized_file(&f, sheet, argv[3], strtoul(argv[4], NULL, 10)))
        return 2;
    if (strcmp(argv[3], "late") != 0)
        f.bytes.len -= strlen("5 +\r\n");
    bool well = true;
    if (strcmp(argv[1], "judge") == 0)
        well = judge_all(&f.bytes, sheet);
    else if (strcmp(argv[1], "explain") == 0)
        well = explain(&f.bytes, sheet);
    else if (strcmp(argv[1], "findings") == 0)
        well = list(&f.bytes, sheet);
    printf("bytes %zu\n", f.bytes.len);
    text_free(&f.bytes);
    return !well;
}
