/* The list of findings (request W-205): the table of causes of refusals, each on
   every sheet where it can occur, with its field, place, length and limits; then
   the answers 1, 2 and 16.  Warnings are in test_warnings.c. */
#include "check_findings.h"

#define ITEM "705 5001 42 03000558"
#define T34 "1234567890123456789012345678901234"
#define T35 T34 "5"
#define LIMIT_14 UINT64_C(99999999999999)
#define LIMIT_12 UINT64_C(999999999999)

/* One line of the frame replaced, on each sheet of these letters.  In a single
   group the item has a payer. */
struct fault {
    const char *sheets;
    unsigned line;
    const char *text;
    unsigned number, cause;
    size_t plus;
    unsigned length, field;
    uint64_t least, most;
    bool single;
};

static unsigned sheet_of(char letter)
{
    return (unsigned)(strchr("KSCEP", letter) - "KSCEP") + 1;
}

static const char *faulty(unsigned sheet, const struct fault *f)
{
    struct frame frame = {.sheet = sheet};
    const char **lines[] = {&frame.first, &frame.file,  &frame.group,
                            &frame.item,  &frame.close, &frame.end};
    if (f->single)
        frame.group = sheet == S || sheet == E ? "2  5001 020118"
                                               : "2 5001 020118";
    *lines[f->line - 1] = f->text;
    return frame_text(frame);
}

static void find_faults(const struct fault *faults, size_t count)
{
    for (const struct fault *f = faults; f < faults + count; f++)
        for (const char *s = f->sheets; *s != 0; s++)
            finds(f->text, sheet_of(*s), faulty(sheet_of(*s), f), f->number,
                  f->cause, f->line, f->plus, f->length, f->field, f->least,
                  f->most);
}
#define FIND(faults) find_faults((faults), sizeof(faults) / sizeof *(faults))

/* ---- 3 ---- */

static const struct fault due[] = {
    {"KSCEP", 1, "", 3, 30, 0, 0, 0, 0, 0, 0},
    {"KSCEP", 1, "uhl1", 3, 30, 0, 4, 0, 0, 0, 0},
    {"KSCEP", 1, "1 1501 000000 0300", 3, 30, 0, 18, 0, 0, 0, 0},
    {"KSCEP", 2, "", 3, 31, 0, 0, 0, 0, 0, 0},
    {"KSCEP", 2, "2 5001 020118", 3, 31, 0, 13, 0, 0, 0, 0},
    {"KSCEP", 2, "UHL1", 3, 31, 0, 4, 0, 0, 0, 0},
    {"KSCEP", 3, "", 3, 32, 0, 0, 0, 0, 0, 0},
    {"KSCEP", 3, "1 1501 000000 0300", 3, 32, 0, 18, 0, 0, 0, 0},
    {"KSCEP", 3, "5 +", 3, 32, 0, 3, 0, 0, 0, 0},
    {"KSCEP", 3, ITEM, 3, 32, 0, 20, 0, 0, 0, 0},
    {"KSCEP", 4, "3 +", 3, 33, 0, 3, 0, 0, 0, 0},
    {"KSCEP", 4, "3+", 3, 33, 0, 2, 0, 0, 0, 0},
    {"KSCEP", 4, "2 19-19 5001 020118", 3, 33, 0, 19, 0, 0, 0, 0},
    {"KSCEP", 5, "5 +", 3, 34, 0, 3, 0, 0, 0, 0},
    {"KSCEP", 5, "5+x", 3, 34, 0, 3, 0, 0, 0, 0},
    {"KSCEP", 5, "UHL1 \x1f", 3, 34, 0, 6, 0, 0, 0, 0},
    {"KSCEP", 6, "", 3, 35, 0, 0, 0, 0, 0, 0},
    {"KSCEP", 6, "3 +", 3, 35, 0, 3, 0, 0, 0, 0},
    {"KSCEP", 6, "x", 3, 35, 0, 1, 0, 0, 0, 0},
};

/* Behind `5 +`, and the early ends, with the last line's end and without. */
static void lines_due(unsigned sheet)
{
    finds("3: an empty line behind all", sheet, FRAME(sheet, .end = "5 +\n"), 3,
          36, 7, 0, 0, 0, 0, 0);
    finds("3: a group behind all", sheet, FRAME(sheet, .end = "5 +\n2 x\n"), 3,
          36, 7, 0, 3, 0, 0, 0);
    finds("3: 5 + twice", sheet, FRAME(sheet, .end = "5 +\n5 +"), 3, 36, 7, 0,
          3, 0, 0, 0);
    finds("3: nothing at all", sheet, "", 3, 30, 1, 0, 0, 0, 0, 0);
    finds_bytes("3: no file", sheet, TODAY, NULL, 0,
                (struct found){3, 30, 1, 0, 0, 0, 0, 0});
    for (uint64_t lines = 1; lines <= 5; lines++) {
        const char *file = PLAIN(sheet);
        size_t len = offset_of(file, strlen(file), lines + 1, 0);
        struct found want = {3, 30 + lines, lines + 1, len, 0, 0, 0, 0};
        finds_bytes("3: an early end", sheet, TODAY, file, len, want);
        want.byte--;
        finds_bytes("3: and no line end", sheet, TODAY, file, len - 1, want);
    }
    const char *file = FRAME(sheet, .close = "3 +\n2 19-19 5001 020118");
    size_t len = offset_of(file, strlen(file), 7, 0);
    finds_bytes("3: in a second group", sheet, TODAY, file, len,
                (struct found){3, 33, 7, len, 0, 0, 0, 0});
}

/* ---- 4 in the first line ---- */

#define NAME "KLIENT TEST         "

static const struct fault first_line[] = {
    {"KSEP", 1, "UHL1", 4, 40, 4, 0, 1, 0, 0, 0},
    {"KSEP", 1, "UHL101011", 4, 40, 4, 5, 1, 0, 0, 0},
    {"KSEP", 1, "UHL10101 8" NAME, 4, 40, 4, 6, 1, 0, 0, 0},
    {"KSEP", 1, "UHL1x10118", 4, 40, 4, 6, 1, 0, 0, 0},
    {"KSEP", 1, "UHL1010118", 4, 40, 10, 0, 2, 0, 0, 0},
    {"KSEP", 1, "UHL1010118KLIENT", 4, 40, 10, 6, 2, 0, 0, 0},
    {"KSEP", 1, "UHL1010118KL\x1f" "ENT TEST         1234567890000999", 4, 40,
     10, 20, 2, 0, 0, 0},
    {"KSEP", 1, "UHL1010118KL\x7f" "ENT", 4, 40, 10, 6, 2, 0, 0, 0},
    {"KSEP", 1, "UHL1010118" NAME, 4, 40, 30, 0, 3, 0, 0, 0},
    {"KSEP", 1, "UHL1010118" NAME "123456789", 4, 40, 30, 9, 3, 0, 0, 0},
    {"KSEP", 1, "UHL1010118" NAME "123456789 000999", 4, 40, 30, 10, 3, 0, 0,
     0},
    {"KSEP", 1, "UHL1010118" NAME "1234567890", 4, 40, 40, 0, 4, 0, 0, 0},
    {"KSEP", 1, "UHL1010118" NAME "123456789000", 4, 40, 40, 2, 4, 0, 0, 0},
    {"KSEP", 1, "UHL1010118" NAME "12345678900 0999000000000000", 4, 40, 40, 3,
     4, 0, 0, 0},
    {"KSEP", 1, "UHL1010118" NAME "1234567890000", 4, 40, 43, 0, 5, 0, 0, 0},
    {"KSEP", 1, "UHL1010118" NAME "12345678900009", 4, 40, 43, 1, 5, 0, 0, 0},
    {"KSEP", 1, "UHL1010118" NAME "123456789000099x000000000000", 4, 40, 43, 3,
     5, 0, 0, 0},
    {"SEP", 1, FIRST_46, 4, 40, 46, 0, 6, 0, 0, 0},
    {"SEP", 1, FIRST_46 "000000", 4, 40, 46, 6, 6, 0, 0, 0},
    {"KSEP", 1, FIRST_46 "0", 4, 40, 46, 1, 6, 0, 0, 0},
    {"KSEP", 1, FIRST_46 "00 00 00 00", 4, 40, 46, 11, 6, 0, 0, 0},
    {"KSEP", 1, FIRST_58 " ", 4, 40, 46, 13, 6, 0, 0, 0},
    {"KSEP", 1, FIRST_46 "00000000000\x1f", 4, 40, 46, 12, 6, 0, 0, 0},
    {"KSEP", 1, FIRST_46 "\t", 4, 40, 46, 1, 6, 0, 0, 0},
};

/* ---- 4 in the heads ---- */

static const struct fault file_line[] = {
    {"KSCEP", 2, "1 ", 4, 40, 2, 0, 10, 0, 0, 0},
    {"KSCEP", 2, "1  1501 000000 0300", 4, 40, 2, 0, 10, 0, 0, 0},
    {"KSCEP", 2, "1 150", 4, 40, 2, 3, 10, 0, 0, 0},
    {"KSCEP", 2, "1 15010 000000 0300", 4, 40, 2, 5, 10, 0, 0, 0},
    {"KSCEP", 2, "1 150x 000000 0300", 4, 40, 2, 4, 10, 0, 0, 0},
    {"KSCEP", 2, "1 1501", 4, 41, 6, 0, 11, 0, 0, 0},
    {"KSCEP", 2, "1 1501 ", 4, 40, 7, 0, 11, 0, 0, 0},
    {"KSCEP", 2, "1 1501  000000", 4, 40, 7, 0, 11, 0, 0, 0},
    {"KSCEP", 2, "1 1501 00000 0300", 4, 40, 7, 5, 11, 0, 0, 0},
    {"KSCEP", 2, "1 1501 0000000", 4, 40, 7, 7, 11, 0, 0, 0},
    {"KSCEP", 2, "1 1501 00-000 0300", 4, 40, 7, 6, 11, 0, 0, 0},
    {"KSCEP", 2, "1 1501 000000", 4, 41, 13, 0, 12, 0, 0, 0},
    {"KSCEP", 2, "1 1501 000000 ", 4, 40, 14, 0, 12, 0, 0, 0},
    {"KSCEP", 2, "1 1501 000000  0300", 4, 40, 14, 0, 12, 0, 0, 0},
    {"KSCEP", 2, "1 1501 000000 300", 4, 40, 14, 3, 12, 0, 0, 0},
    {"KSCEP", 2, "1 1501 000000 08100 x", 4, 40, 14, 5, 12, 0, 0, 0},
    {"KSCEP", 2, "1 1501 000000 03\xe1" "0", 4, 40, 14, 4, 12, 0, 0, 0},
    {"K", 2, "1 1501 000000 8100 ", 4, 42, 18, 1, 12, 0, 0, 0},
    {"S", 2, "1 1501 000000 0800 ", 4, 42, 18, 1, 12, 0, 0, 0},
    {"CP", 2, "1 1501 000000 0300 ", 4, 42, 18, 1, 12, 0, 0, 0},
    {"E", 2, "1 1501 000000 6100  a b", 4, 42, 18, 5, 12, 0, 0, 0},
    {"C", 2, "1 1501 000000 9999  ", 4, 42, 18, 2, 12, 0, 0, 0},
};

/* Where spaces tell, the last of three must stand for a payer to be there. */
static const struct fault group_payer[] = {
    {"K", 3, "2 9 5001 020118", 4, 40, 2, 1, 20, 0, 0, 0},
    {"K", 3, "2 19-9 5001 020118", 4, 40, 2, 4, 20, 0, 0, 0},
    {"K", 3, "2 00000000000000000019 5001 020118", 4, 40, 2, 20, 20, 0, 0, 0},
    {"K", 3, "2 190000000019 5001 020118", 4, 40, 2, 12, 20, 0, 0, 0},
    {"SE", 3, "2 19000000019 5001 020118", 4, 40, 2, 11, 20, 0, 0, 0},
    {"CP", 3, "2 19000000000000019 5001 020118", 4, 40, 2, 17, 20, 0, 0, 0},
    {"KCP", 3, "2  5001 020118", 4, 40, 2, 0, 20, 0, 0, 0},
    {"KCP", 3, "2   ", 4, 40, 2, 0, 20, 0, 0, 0},
    {"KSCEP", 3, "2 -19 5001 020118", 4, 40, 2, 3, 20, 0, 0, 0},
    {"KSCEP", 3, "2 19- 5001 020118", 4, 40, 2, 3, 20, 0, 0, 0},
    {"KSCEP", 3, "2 1900000-19 5001 020118", 4, 40, 2, 10, 20, 0, 0, 0},
    {"KSCEP", 3, "2 19-00000000019 5001 020118", 4, 40, 2, 14, 20, 0, 0, 0},
    {"KSCEP", 3, "2 19-19-19 5001 020118", 4, 40, 2, 8, 20, 0, 0, 0},
    {"KSCEP", 3, "2 x 5001 020118", 4, 40, 2, 1, 20, 0, 0, 0},
    {"KSCEP", 3, "2 000000000000000000 5001 020118", 4, 40, 2, 18, 20, 0, 0,
     0},
    {"SE", 3, "2 19-x", 4, 40, 2, 4, 20, 0, 0, 0},
    {"SE", 3, "2 19-19", 4, 41, 7, 0, 21, 0, 0, 0},
    {"E", 3, "2 00", 4, 41, 4, 0, 21, 0, 0, 0},
    {"SE", 3, "2 ", 4, 41, 2, 0, 21, 0, 0, 0},
};

static const struct fault group_line[] = {
    {"SE", 3, "2  ", 4, 40, 3, 0, 21, 0, 0, 0},
    {"SE", 3, "2   020118", 4, 40, 3, 0, 21, 0, 0, 0},
    {"KCP", 3, "2 ", 4, 40, 2, 0, 21, 0, 0, 0},
    {"KCP", 3, "2  ", 4, 40, 2, 0, 21, 0, 0, 0},
    {"KCP", 3, "2 19-19", 4, 40, 2, 5, 21, 0, 0, 0},
    {"KCP", 3, "2 123456789012345 020118", 4, 40, 2, 15, 21, 0, 0, 0},
    {"KSCEP", 3, "2 19-19  5001 020118", 4, 40, 8, 0, 21, 0, 0, 0},
    {"KSCEP", 3, "2 19-19 123456789012345 020118", 4, 40, 8, 15, 21, 0, 0, 0},
    {"KSCP", 3, "2 19-19 50,01 020118", 4, 40, 8, 5, 21, 0, 0, 0},
    {"KSCEP", 3, "2 19-19 50.01 020118", 4, 40, 8, 5, 21, 0, 0, 0},
    {"E", 3, "2 19-19 ,01 020118", 4, 40, 8, 3, 21, 0, 0, 0},
    {"E", 3, "2 19-19 5001, 020118", 4, 40, 8, 5, 21, 0, 0, 0},
    {"E", 3, "2 19-19 500,1 020118", 4, 40, 8, 5, 21, 0, 0, 0},
    {"E", 3, "2 19-19 123456789012,45 020118", 4, 40, 8, 15, 21, 0, 0, 0},
    {"KCP", 3, "2 5001", 4, 41, 6, 0, 22, 0, 0, 0},
    {"SE", 3, "2  5001", 4, 41, 7, 0, 22, 0, 0, 0},
    {"SE", 3, "2 19-19 5001", 4, 41, 12, 0, 22, 0, 0, 0},
    {"KCP", 3, "2 5001 ", 4, 40, 7, 0, 22, 0, 0, 0},
    {"KSCEP", 3, "2 19-19 5001 ", 4, 40, 13, 0, 22, 0, 0, 0},
    {"KSCEP", 3, "2 19-19 5001  020118", 4, 40, 13, 0, 22, 0, 0, 0},
    {"KSCEP", 3, "2 19-19 5001 20118", 4, 40, 13, 5, 22, 0, 0, 0},
    {"KSCEP", 3, "2 19-19 5001 2018012", 4, 40, 13, 7, 22, 0, 0, 0},
    {"KSE", 3, "2 19-19 5001 20180102", 4, 40, 13, 8, 22, 0, 0, 0},
    {"KSCEP", 3, "2 19-19 5001 201801020", 4, 40, 13, 9, 22, 0, 0, 0},
    {"KSCEP", 3, "2 19-19 5001 0201x8", 4, 40, 13, 6, 22, 0, 0, 0},
    {"KSCEP", 3, "2 19-19 5001 020118 ", 4, 42, 19, 1, 22, 0, 0, 0},
    {"KSCEP", 3, "2 19-19 5001 020118 19 x", 4, 42, 19, 5, 22, 0, 0, 0},
    {"CP", 3, "2 19-19 5001 20180102  ", 4, 42, 21, 2, 22, 0, 0, 0},
    {"SE", 3, "2  5001 020118 \x01", 4, 42, 14, 2, 22, 0, 0, 0},
};

/* ---- 4 in items ---- */

static const struct fault item_accounts[] = {
    {"K", 4, "9 5001 42 03000558", 4, 40, 0, 1, 31, 0, 0, 0},
    {"K", 4, "19-9 5001 42 03000558", 4, 40, 0, 4, 31, 0, 0, 0},
    {"KSE", 4, "00000000705 5001 42 03000558", 4, 40, 0, 11, 31, 0, 0, 0},
    {"CP", 4, "00000000000000705 5001", 4, 40, 0, 17, 31, 0, 0, 0},
    {"KSCEP", 4, "", 4, 40, 0, 0, 31, 0, 0, 0},
    {"KSCEP", 4, " " ITEM, 4, 40, 0, 0, 31, 0, 0, 0},
    {"KSCEP", 4, "70\xff" "5 x", 4, 40, 0, 4, 31, 0, 0, 0},
    {"K", 4, "3", 4, 40, 0, 1, 31, 0, 0, 0},
    {"KSCEP", 4, "7000000-705 5001", 4, 40, 0, 11, 31, 0, 0, 0},
    {"KSCEP", 4, "705", 4, 41, 3, 0, 32, 0, 0, 0},
    {"K", 4, "9 " ITEM, 4, 40, 0, 1, 30, 0, 0, 1},
    {"KSCEP", 4, "", 4, 40, 0, 0, 30, 0, 0, 1},
    {"KSCEP", 4, " " ITEM, 4, 40, 0, 0, 30, 0, 0, 1},
    {"KSCEP", 4, "19--19 705", 4, 40, 0, 6, 30, 0, 0, 1},
    {"KSE", 4, "00000000705 x", 4, 40, 0, 11, 30, 0, 0, 1},
    {"KSCEP", 4, "19", 4, 41, 2, 0, 31, 0, 0, 1},
    {"KSCEP", 4, "19 ", 4, 40, 3, 0, 31, 0, 0, 1},
    {"KSCEP", 4, "19  705", 4, 40, 3, 0, 31, 0, 0, 1},
    {"KSCEP", 4, "19 x 5001", 4, 40, 3, 1, 31, 0, 0, 1},
    {"KSCEP", 4, "19 705", 4, 41, 6, 0, 32, 0, 0, 1},
};

static const struct fault item_fields[] = {
    {"KSCEP", 4, "705 ", 4, 40, 4, 0, 32, 0, 0, 0},
    {"KSCEP", 4, "705  5001 42", 4, 40, 4, 0, 32, 0, 0, 0},
    {"KSCEP", 4, "705 x 42", 4, 40, 4, 1, 32, 0, 0, 0},
    {"KSCP", 4, "705 50,01 42", 4, 40, 4, 5, 32, 0, 0, 0},
    {"KSCEP", 4, "705 50.01 42", 4, 40, 4, 5, 32, 0, 0, 0},
    {"E", 4, "705 50,0 42", 4, 40, 4, 4, 32, 0, 0, 0},
    {"E", 4, "705 ,50 42", 4, 40, 4, 3, 32, 0, 0, 0},
    {"E", 4, "705 123456789012,45 42", 4, 40, 4, 15, 32, 0, 0, 0},
    {"KSCEP", 4, "705 000000000005001 42", 4, 40, 4, 15, 32, 0, 0, 0},
    {"S", 4, "705 0000000005001 42", 4, 40, 4, 13, 32, 0, 0, 0},
    {"KSCEP", 4, "705 5001", 4, 41, 8, 0, 33, 0, 0, 0},
    {"KSCEP", 4, "705 5001 ", 4, 40, 9, 0, 33, 0, 0, 0},
    {"KSCEP", 4, "705 5001  03000558", 4, 40, 9, 0, 33, 0, 0, 0},
    {"KSCEP", 4, "705 5001 12345678901 03000558", 4, 40, 9, 11, 33, 0, 0, 0},
    {"KSCEP", 4, "705 5001 4x 03000558", 4, 40, 9, 2, 33, 0, 0, 0},
    {"KSCEP", 4, "705 5001 42", 4, 41, 11, 0, 34, 0, 0, 0},
    {"KSCEP", 4, "705 5001 42 ", 4, 40, 12, 0, 34, 0, 0, 0},
    {"KSCEP", 4, "705 5001 42  03000558", 4, 40, 12, 0, 34, 0, 0, 0},
    {"KSCEP", 4, "705 5001 42 3000558", 4, 40, 12, 7, 34, 0, 0, 0},
    {"KSCEP", 4, "705 5001 42 00003000558 17", 4, 40, 12, 11, 34, 0, 0, 0},
    {"KSCEP", 4, "705 5001 42 0300055\x0b", 4, 40, 12, 8, 34, 0, 0, 0},
    {"KSCEP", 4, "19 705 5001 42 0300-558", 4, 40, 15, 8, 34, 0, 0, 1},
};

static const struct fault tails[] = {
    {"S", 4, ITEM, 4, 41, 20, 0, 35, 0, 0, 0},
    {"S", 4, ITEM " ", 4, 41, 21, 0, 36, 0, 0, 0},
    {"S", 4, ITEM " 17", 4, 41, 23, 0, 36, 0, 0, 0},
    {"S", 4, "19 " ITEM " 17", 4, 41, 26, 0, 36, 0, 0, 1},
    {"S", 4, ITEM " x", 4, 40, 21, 1, 35, 0, 0, 0},
    {"S", 4, ITEM " 12345678901 a", 4, 40, 21, 11, 35, 0, 0, 0},
    {"S", 4, ITEM "  a\x1f b", 4, 40, 22, 4, 36, 0, 0, 0},
    {"S", 4, ITEM " 17  \x7f", 4, 40, 24, 2, 36, 0, 0, 0},
    {"KEP", 4, ITEM " ", 4, 40, 21, 0, 35, 0, 0, 0},
    {"KEP", 4, ITEM "  17", 4, 40, 21, 0, 35, 0, 0, 0},
    {"KEP", 4, ITEM " 12345678901", 4, 40, 21, 11, 35, 0, 0, 0},
    {"KEP", 4, ITEM " AV:a b", 4, 40, 21, 4, 35, 0, 0, 0},
    {"KEP", 4, "19 " ITEM " 1x AV:a", 4, 40, 24, 2, 35, 0, 0, 1},
    {"KCEP", 4, ITEM " 17 ", 4, 40, 24, 0, 36, 0, 0, 0},
    {"KCEP", 4, ITEM " 17  AV:a", 4, 40, 24, 5, 36, 0, 0, 0},
    {"KCEP", 4, ITEM " 17 AV:a b\x1f" "c d", 4, 40, 24, 10, 36, 0, 0, 0},
    {"KCEP", 4, ITEM " 17 x\x7f", 4, 40, 24, 2, 36, 0, 0, 0},
    {"C", 4, ITEM " ", 4, 40, 21, 0, 36, 0, 0, 0},
    {"C", 4, ITEM "  ", 4, 40, 21, 1, 36, 0, 0, 0},
    {"C", 4, ITEM "  17 a", 4, 40, 21, 5, 36, 0, 0, 0},
    {"C", 4, "19 " ITEM " 1x\x01 AV:a", 4, 40, 24, 8, 36, 0, 0, 1},
    {"C", 4, ITEM " 12345678901 \x1f", 4, 40, 21, 13, 36, 0, 0, 0},
};

/* ---- 4 in closing lines ---- */

static const struct fault closings[] = {
    {"KSP", 5, "3+", 4, 43, 1, 1, 50, 0, 0, 0},
    {"KSP", 5, "3+ x", 4, 43, 1, 3, 50, 0, 0, 0},
    {"CE", 5, "3+x", 4, 43, 2, 1, 50, 0, 0, 0},
    {"CE", 5, "3+ +", 4, 43, 2, 2, 50, 0, 0, 0},
    {"KSCEP", 5, "3 ", 4, 43, 2, 0, 50, 0, 0, 0},
    {"KSCEP", 5, "3 x", 4, 43, 2, 1, 50, 0, 0, 0},
    {"KSCEP", 5, "3  +", 4, 43, 2, 2, 50, 0, 0, 0},
    {"KSCEP", 5, "3 + ", 4, 43, 3, 1, 50, 0, 0, 0},
    {"KSCEP", 5, "3 +123 4", 4, 43, 3, 5, 50, 0, 0, 0},
    {"KSP", 6, "5+", 4, 43, 1, 1, 51, 0, 0, 0},
    {"CE", 6, "5+\x01", 4, 43, 2, 1, 51, 0, 0, 0},
    {"KSCEP", 6, "5 ", 4, 43, 2, 0, 51, 0, 0, 0},
    {"KSCEP", 6, "5 -", 4, 43, 2, 1, 51, 0, 0, 0},
    {"KSCEP", 6, "5 +\t\t", 4, 43, 3, 2, 51, 0, 0, 0},
};

/* ---- 5 to 9 ---- */

/* The prefix first, then the base's sum, then its zeros. */
static const struct fault accounts[] = {
    {"KSCEP", 3, "2 1-19 5001 020118", 5, 50, 2, 4, 20, 0, 0, 0},
    {"KSCEP", 3, "2 19-706 5001 020118", 5, 51, 2, 6, 20, 0, 0, 0},
    {"KSCEP", 3, "2 19-00 5001 020118", 5, 52, 2, 5, 20, 0, 0, 0},
    {"KSCEP", 3, "2 706 5001 020118", 5, 51, 2, 3, 20, 0, 0, 0},
    {"SCP", 3, "2 0 5001 020118", 5, 52, 2, 1, 20, 0, 0, 0},
    {"CP", 3, "2 0000000000000000 5001 020118", 5, 52, 2, 16, 20, 0, 0, 0},
    {"CP", 3, "2 10000000019 5001 020118", 5, 50, 2, 11, 20, 0, 0, 0},
    {"CP", 3, "2 190000000706 5001 020118", 5, 51, 2, 12, 20, 0, 0, 0},
    {"KCP", 3, "2 5001 020118 ", 5, 51, 2, 4, 20, 0, 0, 0},
    {"KSCEP", 4, "1-706 5001 42 03000558", 5, 50, 0, 5, 31, 0, 0, 0},
    {"KSCEP", 4, "706", 5, 51, 0, 3, 31, 0, 0, 0},
    {"KSCEP", 4, "00 5001", 5, 52, 0, 2, 31, 0, 0, 0},
    {"KSCEP", 4, "0000-0000000000 5001", 5, 52, 0, 15, 31, 0, 0, 0},
    {"SCEP", 4, "3", 5, 51, 0, 1, 31, 0, 0, 0},
    {"SCEP", 4, "9 5001", 5, 51, 0, 1, 31, 0, 0, 0},
    {"KSCEP", 4, "1234567890 5001", 5, 51, 0, 10, 31, 0, 0, 0},
    {"CP", 4, "1234560000000019 5001", 5, 50, 0, 16, 31, 0, 0, 0},
    {"KSCEP", 4, "20-19 705", 5, 50, 0, 5, 30, 0, 0, 1},
    {"KSCEP", 4, "20 705", 5, 51, 0, 2, 30, 0, 0, 1},
    {"KSCEP", 4, "19-00", 5, 52, 0, 5, 30, 0, 0, 1},
    {"KSCEP", 4, "19 20-705 5001", 5, 50, 3, 6, 31, 0, 0, 1},
    {"KSCEP", 4, "19-19 706 5001", 5, 51, 6, 3, 31, 0, 0, 1},
    {"KSCEP", 4, "19-19 00 5001", 5, 52, 6, 2, 31, 0, 0, 1},
};

static const struct fault amounts[] = {
    {"KCP", 4, "705 0", 6, 60, 4, 1, 32, 1, LIMIT_14, 0},
    {"KCP", 4, "705 00000000000000 42", 6, 60, 4, 14, 32, 1, LIMIT_14, 0},
    {"SE", 4, "705 0 42", 6, 60, 4, 1, 32, 1, LIMIT_12, 0},
    {"S", 4, "19 705 000000000000 42", 6, 60, 7, 12, 32, 1, LIMIT_12, 1},
    {"E", 4, "705 0,00", 6, 60, 4, 4, 32, 1, LIMIT_12, 0},
    {"E", 4, "705 1000000000000 42", 6, 61, 4, 13, 32, 1, LIMIT_12, 0},
    {"E", 4, "705 99999999999,99", 6, 61, 4, 14, 32, 1, LIMIT_12, 0},
    {"E", 4, "705 10000000000,00", 6, 61, 4, 14, 32, 1, LIMIT_12, 0},
    {"E", 4, "19 705 99999999999999", 6, 61, 7, 14, 32, 1, LIMIT_12, 1},
};

static const struct fault heads[] = {
    {"KE", 2, "1 1502", 7, 70, 2, 4, 10, 1501, 1501, 0},
    {"KE", 2, "1 1500 x", 7, 70, 2, 4, 10, 1501, 1501, 0},
    {"SP", 2, "1 1503 000000 0800", 7, 70, 2, 4, 10, 1501, 1502, 0},
    {"SP", 2, "1 0000", 7, 70, 2, 4, 10, 1501, 1502, 0},
    {"C", 2, "1 1505 000000 0300", 7, 70, 2, 4, 10, 1501, 1504, 0},
    {"C", 2, "1 1500 000000 0300", 7, 70, 2, 4, 10, 1501, 1504, 0},
    {"K", 2, "1 1501 000000 0300", 8, 80, 14, 4, 12, 8100, 8100, 0},
    {"S", 2, "1 1501 000000 0300 ", 8, 80, 14, 4, 12, 800, 800, 0},
    {"E", 2, "1 1501 000000 0000", 8, 80, 14, 4, 12, 6100, 6100, 0},
    {"P", 2, "1 1502 000000 8100", 8, 80, 14, 4, 12, 300, 300, 0},
};

#define INTERVAL(from_to) "UHL1010118" NAME "1234567890" from_to "000000000000"

static void numbers_9(void)
{
    finds("9: 90", K, FRAME(K, .first = INTERVAL("024023")), 9, 90, 1, 43, 3, 5,
          24, 999);
    finds("9: 90 before the rest", K,
          FRAME(K, .first = "UHL1010118" NAME "1234567890999000x"), 9, 90, 1,
          43, 3, 5, 999, 999);
    finds("9: 91 below", K,
          FRAME(K, .first = INTERVAL("024100"), .file = "1 1501 023999 8100"),
          9, 91, 2, 7, 6, 11, 24, 100);
    finds("9: 91 above, before its divider", K,
          FRAME(K, .first = INTERVAL("000000"), .file = "1 1501 001000"), 9, 91,
          2, 7, 6, 11, 0, 0);
#define MORE(number)                                             \
    "5 +\n1 1501 " number " 8100\n2 19-19 5001 020118\n" ITEM    \
    "\n3 +\n5 +"
    finds("9: 92", K,
          FRAME(K, .first = INTERVAL("024100"), .file = "1 1501 024000 8100",
                .end = MORE("024999")),
          9, 92, 7, 7, 6, 11, 24, 100);
    finds("9: 91 before 92", K,
          FRAME(K, .first = INTERVAL("024100"), .file = "1 1501 024000 8100",
                .end = MORE("101000")),
          9, 91, 7, 7, 6, 11, 24, 100);
    finds("9: 92 of the first of three", K,
          FRAME(K, .file = "1 1501 999001 8100",
                .end = "5 +\n1 1501 000999 8100\n2 19-19 5001 020118\n" ITEM
                       "\n3 +\n" MORE("999001")),
          9, 92, 12, 7, 6, 11, 0, 999);
}

/* ---- 10 ---- */

static const struct fault totals[] = {
    {"KSP", 3, "2 19-19 5000 020118", 10, 100, 8, 4, 21, 5001, 5001, 0},
    {"KSP", 3, "2 19-19 0 020118", 10, 100, 8, 1, 21, 5001, 5001, 0},
    {"KSP", 3, "2 19-19 00000000005002 020118", 10, 100, 8, 14, 21, 5001, 5001,
     0},
};

/* Enough items of this amount to pass 14 digits, in one group. */
static const char *passing(unsigned sheet, const char *group, const char *item,
                           int count, const char *close)
{
    static char items[8000];
    char *at = items;
    for (int i = 0; i < count; i++)
        at += sprintf(at, "%s%s", i > 0 ? "\n" : "", item);
    return FRAME(sheet, .group = group, .item = items, .close = close);
}

static void sums_10(void)
{
    static const char most[] = "19 705 99999999999999 0 03000000";
    static const char less[] = "19 705 999999999999 0 03000000  ";
    static const char comma[] = "705 9999999999,99 0 03000000";
    finds("10: K passes", K, passing(K, "2 1 020118", most, 2, "3 +"), 10, 101,
          3, 2, 1, 21, 0, LIMIT_14);
    finds("10: C passes", C,
          passing(C, "2 00 020118", most, 2, "3+\n2 x"), 10, 101, 3, 2, 2, 21,
          0, LIMIT_14);
    finds("10: P passes", P,
          passing(P, "2 99999999999999 020118", most, 2, "3 +"), 10, 101, 3, 2,
          14, 21, 0, LIMIT_14);
    finds("10: S passes", S, passing(S, "2  12345 020118", less, 101, "3 +"),
          10, 101, 3, 3, 5, 21, 0, LIMIT_14);
    finds("10: E passes", E,
          passing(E, "2 19-19 1,00 010100", comma, 101, "3+"), 10, 101, 3, 8, 4,
          21, 0, LIMIT_14);
    finds("10: the largest sum differs", P,
          passing(P, "2 1 020118", "19 705 33333333333333 0 03000000", 3,
                  "3 +"),
          10, 100, 3, 2, 1, 21, LIMIT_14, LIMIT_14);
    finds("10: K, a second group", K,
          FRAME(K, .close = "3 +\n2 0-0 10003 010118\n19 " ITEM "\n19 " ITEM
                            "\n3 +\nx"),
          10, 100, 6, 6, 5, 21, 10002, 10002);
    finds("10: S, single", S,
          FRAME(S, .group = "2  5000 020118", .item = "19 " ITEM "  "), 10, 100,
          3, 3, 4, 21, 5001, 5001);
    const char *file = FRAME(P, .group = "2 5 020118",
                             .item = "19 705 6 0 03000000\n"
                                     "19 705 7 0 03000000");
    size_t len = (size_t)(strstr(file, "3 +") + 3 - file);
    finds_bytes("10: before an early end", P, TODAY, file, len,
                (struct found){10, 100, 3, offset_of(file, len, 3, 2), 1, 21,
                               13, 13});
}

/* ---- 11 ---- */

static const struct fault days[] = {
    {"KSEP", 1, "UHL1290218", 11, 110, 4, 6, 1, 20000101, 20991231, 0},
    {"KSEP", 1, "UHL1000000" NAME, 11, 110, 4, 6, 1, 20000101, 20991231, 0},
    {"KSCEP", 3, "2 19-19 5001 320118", 11, 110, 13, 6, 22, 20000101, 20991231,
     0},
    {"KSCEP", 3, "2 19-19 5001 290223 ", 11, 110, 13, 6, 22, 20000101,
     20991231, 0},
    {"CP", 3, "2 19-19 5001 21000228", 11, 110, 13, 8, 22, 20000101, 20991231,
     0},
    {"CP", 3, "2 5001 19991231", 11, 110, 7, 8, 22, 20000101, 20991231, 0},
    {"K", 3, "2 19-19 5001 311217", 11, 111, 13, 6, 22, TODAY, 364, 0},
    {"K", 3, "2 5001 010100", 11, 111, 7, 6, 22, TODAY, 364, 0},
    {"S", 3, "2 19-19 5001 311217", 11, 111, 13, 6, 22, TODAY, 0, 0},
    {"S", 3, "2  5001 010100 ", 11, 111, 8, 6, 22, TODAY, 0, 0},
    {"K", 3, "2 19-19 5001 010119", 11, 112, 13, 6, 22, TODAY, 364, 0},
    {"K", 3, "2 00 5001 311299", 11, 112, 10, 6, 22, TODAY, 364, 0},
    {"CP", 3, "2 19-19 5001 020119", 11, 112, 13, 6, 22, 0, 365, 0},
    {"CP", 3, "2 5001 20991231", 11, 112, 7, 8, 22, 0, 365, 0},
};

/* Kind 1502 due that day, from that bank, on that day. */
static void collected(const char *what, unsigned sheet, uint64_t today,
                      const char *day, const char *bank, unsigned cause,
                      uint64_t most)
{
    char group[40], item[60];
    snprintf(group, sizeof group, "2 5001 %s", day);
    snprintf(item, sizeof item, "19 705 5001 42 %s x", bank);
    finds_on(what, sheet, today,
             FRAME(sheet, .file = "1 1502 000000 0300", .group = group,
                   .item = item),
             11, cause, 4, 15, strlen(bank), 34, today, most);
}

static void collections_11(unsigned sheet)
{
    finds("11: 110 of a collection", sheet,
          FRAME(sheet, .file = "1 1502 000000 0300",
                .group = "2 19-19 5001 310218"),
          11, 110, 3, 13, 6, 22, 20000101, 20991231);
    collected("11: 0300 yesterday", sheet, TODAY, "311217", "03000558", 113, 0);
    collected("11: 0800 yesterday", sheet, TODAY, "311217", "08000558", 113, 1);
    collected("11: 0800 today", sheet, TODAY, "20180101", "0008000300", 113, 1);
    collected("11: 0300 long ago", sheet, TODAY, "010100", "003000000", 113, 0);
    collected("11: 0300 late", sheet, TODAY, "020218", "03000558", 114, 1);
    collected("11: 0800 late", sheet, TODAY, "20190101", "08000558", 114, 1);
    collected("11: 0001 at the end", sheet, 20991231, "311299", "00010000", 113,
              1);
    collected("11: behind a short month", sheet, 20180131, "010318", "03000558",
              114, 1);
    /* The day of the group in hand, by the kind of the file in hand. */
    finds("11: in a second file and group", sheet,
          FRAME(sheet, .group = "2 19-19 5001 311217",
                .end = "5 +\n1 1502 000000 0300\n2 19-19 5001 010118\n" ITEM
                       "\n3 +\n2 19-19 5001 010318\n" ITEM "\n3 +\n5 +"),
          11, 114, 12, 12, 8, 34, TODAY, 1);
}

/* ---- 12 and 13 ---- */

static const struct fault bank_fields[] = {
    {"KSCEP", 4, "705 5001 42 00000558", 12, 120, 12, 8, 34, 1, 9999, 0},
    {"KSCEP", 4, "705 5001 42 9900000558", 12, 120, 12, 10, 34, 1, 9999, 0},
    {"KSCEP", 4, "19 705 5001 42 000000000 ", 12, 120, 15, 9, 34, 1, 9999, 1},
    {"KSCEP", 4, "705 5001 42 1003000558", 13, 131, 12, 10, 34, 0, 0, 0},
    {"KSCEP", 4, "705 5001 42 9903000558", 13, 131, 12, 10, 34, 0, 0, 0},
    {"SCEP", 4, "705 5001 42 103000558", 13, 130, 12, 9, 34, 0, 0, 0},
    {"SCEP", 4, "19 705 5001 42 0903000558 ", 13, 130, 15, 10, 34, 0, 0, 1},
};

/* ---- 14 ---- */

static const struct fault texts[] = {
    {"KEP", 4, ITEM " 17 x", 14, 140, 24, 1, 36, 4, 35, 0},
    {"KEP", 4, ITEM " 17 av:x y", 14, 140, 24, 6, 36, 4, 35, 0},
    {"KEP", 4, ITEM " 17 AV", 14, 140, 24, 2, 36, 4, 35, 0},
    {"KEP", 4, "19 " ITEM " 17 a|b|c|d|e#" T35, 14, 140, 27, 45, 36, 4, 35, 1},
    {"KCEP", 4, ITEM " 17 AV:a|b|c|d|e", 14, 141, 24, 12, 36, 4, 35, 0},
    {"KCEP", 4, ITEM " 17 AV:||||", 14, 141, 24, 7, 36, 4, 35, 0},
    {"KCEP", 4, ITEM " 17 AV:" T35 "6#||||~", 14, 141, 24, 45, 36, 4, 35, 0},
    {"C", 4, ITEM " ||||", 14, 141, 21, 4, 36, 4, 35, 0},
    {"C", 4, ITEM " a|b|c|d| NP:e", 14, 141, 21, 13, 36, 4, 35, 0},
    {"KEP", 4, ITEM " 17 AV:" T35 "6", 14, 142, 24, 39, 36, 4, 35, 0},
    {"KEP", 4, ITEM " 17 AV:|||" T35 "#", 14, 142, 24, 42, 36, 4, 35, 0},
    {"KEP", 4, ITEM " 17 AV:" T35 "|" T35 "~|", 14, 142, 24, 76, 36, 4, 35, 0},
    {"S", 4, ITEM "  " T35 "6", 14, 142, 22, 36, 36, 1, 35, 0},
    {"S", 4, ITEM " 17 " T35 "|", 14, 142, 24, 36, 36, 1, 35, 0},
    {"S", 4, ITEM "  |", 14, 143, 22, 1, 36, 1, 35, 0},
    {"S", 4, "19 " ITEM " 17  a|b", 14, 143, 27, 4, 36, 1, 35, 1},
    {"P", 4, ITEM " 17 AV:#", 14, 144, 24, 4, 36, 4, 35, 0},
    {"P", 4, ITEM " 17 AV:a|b|c|~", 14, 144, 24, 10, 36, 4, 35, 0},
    {"P", 4, ITEM " 17 AV:#" T34 "|" T34 "~", 14, 144, 24, 74, 36, 4, 35, 0},
};

/* ---- 15 ---- */

/* Behind so many account files, each with an item, a last one's line. */
static void files_15(unsigned sheet)
{
    static char text[1002 * 80];
    static const char *const banks[] = {"8100", "0800", "0300", "6100", "0300"};
    char *at = text + sprintf(text, "%s\n", FIRST_58);
    const char *tail = sheet == S ? "  " : "";
    for (int i = 0; i < 1000; i++)
        at += sprintf(at, "1 1501 %03d000 %s\n2 19-19 1 020118\n"
                          "705 1 0 03000000%s\n3 +\n5 +\n",
                      sheet == S ? 0 : i, banks[sheet - 1], tail);
    find_all("15: 1,000 account files", sheet, TODAY, text, strlen(text));
    CHECK("15: 1,000 account files", test_list.refused == 0);
    sprintf(at, "1 x");
    finds("15: 150", sheet, text, 15, 150, 5002, 0, 3, 0, 0, 1000);
    sprintf(at, "2 x");
    finds("15: 3 before it", sheet, text, 3, 36, 5002, 0, 3, 0, 0, 0);
}

static char *many_items(char *at, const char *item, int count)
{
    for (int i = 0; i < count; i++)
        at += sprintf(at, "%s\n", item);
    return at;
}

/* In the second account file; the items of the first do not count there. */
static void items_15(unsigned sheet)
{
    static char text[100100 * 17];
    static const char *const banks[] = {"8100", "0800", "0300", "6100", "0300"};
    char *at = text + sprintf(text, "%s\n1 1501 000000 %s\n2 19-19 1 020118\n"
                                    "705 1 0 03000000\n3 +\n5 +\n",
                              FIRST_58, banks[sheet - 1]);
    at += sprintf(at, "1 1501 001000 %s\n2 19-19 1 020118\n",
                  banks[sheet - 1]);
    at = many_items(at, "705 1 0 03000000", 99999);
    sprintf(at, "706 \x7f");
    finds("15: 151", sheet, text, 15, 151, 100008, 0, 5, 0, 0, 99999);
}

static void items_of_s_15(void)
{
    static char text[1100 * 22];
    char *at = text + sprintf(text, "%s\n1 1501 000000 0800\n"
                                    "2  500 020118\n",
                              FIRST_58);
    at = many_items(at, "19 705 1 0 03000000  ", 500);
    at += sprintf(at, "3 +\n5 +\n1 1502 000000 0800\n2 19-19 500 020118\n");
    at = many_items(at, "705 1 0 03000000  ", 500);
    sprintf(at, "\n");
    finds("15: 152, an empty line", S, text, 15, 152, 1008, 0, 0, 0, 0, 1000);
    sprintf(at, "705 1 0 03000000\r\n");
    finds("15: 152", S, text, 15, 152, 1008, 0, 16, 0, 0, 1000);
}

/* Lines ended by CR LF and CR. */
static void line_ends_between(void)
{
    finds("line ends", C, "UHL1\r\n1 1501 000000 0300 \r\r\n", 4, 42, 2, 18, 1,
          12, 0, 0);
    finds("line ends, an empty line", C, "UHL1\r\n\r1 x", 3, 31, 2, 0, 0, 0, 0,
          0);
}

/* ---- 1, 2, 16 ---- */

static void answers_nothing(uint64_t sheet, uint64_t today, uint64_t number)
{
    const char *file = FRAME(C, .group = "2 19-19 1 311217");
    uint8_t *lent = lend(4 * FINDING);
    struct peer_list list =
        peer_findings((const uint8_t *)file, strlen(file), sheet, today,
                      lent + GUARD, 4 * FINDING);
    CHECK("1 and 2: the list",
          list.number == number && list.refused == 0 && list.count == 0 &&
              list.needed == 0 && list.sheets == 0);
    struct peer_text text =
        peer_findings_text((const uint8_t *)file, strlen(file), sheet, today,
                           lent + GUARD, 4 * FINDING);
    CHECK("1 and 2: the text", text.number == number && text.bytes == 0);
    CHECK("1 and 2: untouched", untouched(lent, 4 * FINDING + 2 * GUARD));
    list = peer_findings(NULL, 0, sheet, today, NULL, 0);
    text = peer_findings_text(NULL, 0, sheet, today, NULL, 0);
    CHECK("1 and 2: no file, no room",
          list.number == number && list.sheets == 0 && list.needed == 0 &&
              text.number == number && text.bytes == 0);
    free(lent);
}

static void refused_calls(void)
{
    static const uint64_t sheets[] = {0, 6, 255, UINT64_C(1) << 32 | 1,
                                      UINT64_MAX};
    static const uint64_t todays[] = {0,        20180229, 19991231,   20180001,
                                      20180100, 21000101, UINT64_MAX, 10118};
    for (size_t i = 0; i < 5; i++) {
        answers_nothing(sheets[i], TODAY, 1);
        answers_nothing(sheets[i], 0, 1);
    }
    for (size_t i = 0; i < 8; i++)
        for (unsigned sheet = K; sheet <= P; sheet++)
            answers_nothing(sheet, todays[i], 2);
}

/* With exactly as many bytes as the findings take, and some more. */
static void room_16(void)
{
    const char *file = FRAME(C, .group = "2 19-19 1 311217");
    const uint8_t *bytes = (const uint8_t *)file;
    uint8_t room[3 * FINDING];
    for (size_t len = 0; len <= sizeof room; len++) {
        uint8_t *lent = copy_of(room, len);
        struct peer_list list =
            peer_findings(bytes, strlen(file), C, TODAY, lent, len);
        bool fits = len >= 2 * FINDING;
        CHECK("16: each room", list.number == (fits ? 0 : 16) &&
                                   list.count == (fits ? 2 : 0) &&
                                   list.needed == (fits ? 0 : 2) &&
                                   list.sheets == (fits ? 4 : 0));
        list = peer_findings(bytes, strlen(file), K, TODAY, lent, len);
        fits = len >= FINDING;
        CHECK("16: a refused file", list.number == (fits ? 0 : 16) &&
                                        list.refused == fits &&
                                        list.count == fits &&
                                        list.needed == !fits);
        free(lent);
    }
    struct peer_list none =
        peer_findings((const uint8_t *)PLAIN(S), strlen(PLAIN(S)), S, TODAY,
                      NULL, 0);
    CHECK("no warnings, no room", none.number == 0 && none.refused == 0 &&
                                      none.count == 0 && none.needed == 0 &&
                                      none.sheets == 2);
}

void test_findings(void)
{
    for (unsigned sheet = K; sheet <= P; sheet++) {
        lines_due(sheet);
        files_15(sheet);
        if (sheet != S)
            items_15(sheet);
    }
    FIND(due);
    FIND(first_line);
    FIND(file_line);
    FIND(group_payer);
    FIND(group_line);
    FIND(item_accounts);
    FIND(item_fields);
    FIND(tails);
    FIND(closings);
    FIND(accounts);
    FIND(amounts);
    FIND(heads);
    numbers_9();
    FIND(totals);
    sums_10();
    FIND(days);
    collections_11(C);
    collections_11(P);
    FIND(bank_fields);
    FIND(texts);
    items_of_s_15();
    refused_calls();
    room_16();
    line_ends_between();
}
