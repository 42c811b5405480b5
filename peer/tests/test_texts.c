/* Readings 21 to 24: the symbol and texts behind the bank field. */
#include "check.h"

#define ITEM "705 5001 42 03000558"
#define T35 "12345678901234567890123456789012345"
#define T36 T35 "6"

static const char *no_texts(const uint64_t *row)
{
    for (size_t word = 11; word <= 20; word++)
        if (row[word] != 0)
            return NULL;
    return "none";
}

static void bytes_21(void)
{
    static const unsigned marked[] = {K, E, P};
    for (int i = 0; i < 3; i++) {
        unsigned sheet = marked[i];
        refused("21: a control byte before the start", sheet,
                FRAME(sheet, .item = ITEM " 17 XX\x01"), 4, 4, 24);
        refused("21: 127 before the length", sheet,
                FRAME(sheet, .item = ITEM " 17 AV:" T36 "\x7f"), 4, 4, 24);
        refused("21: a tab first", sheet,
                FRAME(sheet, .item = ITEM " 17 \tAV:x"), 4, 4, 24);
        refused("21: the text's start for 14", sheet,
                FRAME(sheet, .item = ITEM " 17 AV:a|b|" T36), 14, 4, 24);
    }
    refused("21: S, 4 before 14", S, FRAME(S, .item = ITEM "  a|\x1f"), 4, 4,
            22);
    refused("21: C, behind a cut", C,
            FRAME(C, .item = ITEM " 17 " T36 "78\x7f"), 4, 4, 24);
    refused("21: C, before too many parts", C,
            FRAME(C, .item = ITEM " a|b|c|d|e\x02"), 4, 4, 21);
    refused("21: C, in a name", C,
            FRAME(C, .item = ITEM " NP:" T36 "\x0b"), 4, 4, 21);
    const char *file = FRAME(K, .item = ITEM " 17 AV:\x80\xff~ }");
    uint64_t(*row)[WORDS] = accepted("21: 128 to 255", K, file, 3, 0);
    CHECK("21: 128 to 255", says(file, row[2], 11, "\x80\xff~ }"));
}

/* Each byte alone, and at each place of a longer text. */
static void each_byte_21(void)
{
    for (int byte = 1; byte < 256; byte++) {
        char item[80];
        snprintf(item, sizeof item, ITEM " 17 AV:123456789%c123456789",
                 (char)byte);
        if (byte == '\r' || byte == '\n')
            continue;
        if (byte < 32 || byte == 127)
            refused("21: each byte", E, FRAME(E, .item = item), 4, 4, 24);
        else
            accepted("21: each byte", E, FRAME(E, .item = item), 3, 0);
        if (byte < 32 || byte == 127)
            refused("21: each byte on P", P, FRAME(P, .item = item), 4, 4, 24);
        else if (byte == '#' || byte == '~')
            refused("21: each byte on P", P, FRAME(P, .item = item), 14, 4, 24);
        else
            accepted("21: each byte on P", P, FRAME(P, .item = item), 3, 0);
    }
    for (int at = 0; at < 35; at++) {
        char item[80];
        snprintf(item, sizeof item, ITEM "  %s", T35);
        item[22 + at] = 31;
        refused("21: each place", S, FRAME(S, .item = item), 4, 4, 22);
    }
}

static void tail_of_s_22(void)
{
    refused("22: no space", S, FRAME(S, .item = ITEM), 4, 4, 20);
    refused("22: one space", S, FRAME(S, .item = ITEM " "), 4, 4, 21);
    refused("22: a symbol and no space", S, FRAME(S, .item = ITEM " 17"), 4, 4,
            23);
    refused("22: a bad symbol comes first", S, FRAME(S, .item = ITEM " 1x"), 4,
            4, 21);
    refused("22: eleven digits", S, FRAME(S, .item = ITEM " 12345678901"), 4, 4,
            21);
    refused("22: a text for a symbol", S, FRAME(S, .item = ITEM " led zima"), 4,
            4, 21);
    const char *file = FRAME(S, .item = ITEM "   x");
    uint64_t(*row)[WORDS] =
        accepted("22: a third space belongs to the part", S, file, 3, 0);
    CHECK("22: the part begins with it", says(file, row[2], 11, " x"));
    row = accepted("22: both empty", S, FRAME(S, .item = ITEM "  "), 3, 0);
    CHECK("22: no symbol, no part", row[2][8] == 0 && no_texts(row[2]));
    file = FRAME(S, .item = ITEM " 0000000017 AV:led");
    row = accepted("22: both there", S, file, 3, 0);
    CHECK("22: AV: is text on S",
          row[2][8] == 17 && says(file, row[2], 11, "AV:led"));
    file = FRAME(S, .item = ITEM " 9999999999 " T35);
    row = accepted("22: 35 bytes", S, file, 3, 0);
    CHECK("22: 35 bytes",
          row[2][8] == 9999999999 && says(file, row[2], 11, T35));
    refused("22: 36 bytes", S, FRAME(S, .item = ITEM "  " T36), 14, 4, 22);
    refused("22: a bar", S, FRAME(S, .item = ITEM " 17 |"), 14, 4, 24);
    accepted("22: a space alone is a part", S, FRAME(S, .item = ITEM "   "), 3,
             0);
}

static void tail_of_k_e_and_p_23(unsigned sheet)
{
    uint64_t(*row)[WORDS];
    refused("23: no symbol before the text", sheet,
            FRAME(sheet, .item = ITEM " AV:x"), 4, 4, 21);
    refused("23: eleven digits", sheet,
            FRAME(sheet, .item = ITEM " 12345678901"), 4, 4, 21);
    refused("23: a symbol's bytes", sheet, FRAME(sheet, .item = ITEM " 1x"), 4,
            4, 21);
    row = accepted("23: nothing", sheet, FRAME(sheet, .item = ITEM), 3, 0);
    CHECK("23: nothing", row[2][8] == 0 && no_texts(row[2]));
    row = accepted("23: a symbol", sheet, FRAME(sheet, .item = ITEM " 17"), 3,
                   0);
    CHECK("23: a symbol", row[2][8] == 17 && no_texts(row[2]));
    row = accepted("23: AV: alone", sheet, FRAME(sheet, .item = ITEM " 0 AV:"),
                   3, 0);
    CHECK("23: one empty part", row[2][8] == 0 && no_texts(row[2]));
}

static void parts_of_k_e_and_p_23(unsigned sheet)
{
    uint64_t(*row)[WORDS];
    const char *file;
    refused("23: AV:||||", sheet, FRAME(sheet, .item = ITEM " 17 AV:||||"), 14,
            4, 24);
    row = accepted("23: AV:|||", sheet, FRAME(sheet, .item = ITEM " 17 AV:|||"),
                   3, 0);
    CHECK("23: four empty parts", no_texts(row[2]) != NULL);
    file = FRAME(sheet, .item = ITEM " 17 AV:a| b|AV:|" T35);
    row = accepted("23: four parts", sheet, file, 3, 0);
    CHECK("23: four parts",
          says(file, row[2], 11, "a") && says(file, row[2], 13, " b") &&
              says(file, row[2], 15, "AV:") && says(file, row[2], 17, T35) &&
              row[2][20] == 0);
    refused("23: a text without AV:", sheet,
            FRAME(sheet, .item = ITEM " 17 NP:Jan"), 14, 4, 24);
    refused("23: AV without its colon", sheet,
            FRAME(sheet, .item = ITEM " 17 AV"), 14, 4, 24);
    refused("23: a space first", sheet,
            FRAME(sheet, .item = ITEM " 17  AV:x"), 4, 4, 24);
    file = FRAME(sheet, .item = ITEM " 17 AV:a NP:Jan");
    row = accepted("23: no names here", sheet, file, 3, 0);
    CHECK("23: no names here",
          says(file, row[2], 11, "a NP:Jan") && row[2][20] == 0);
    refused("23: 36 bytes in a part", sheet,
            FRAME(sheet, .item = ITEM " 17 AV:" T36), 14, 4, 24);
}

static void symbols_of_c_24(void)
{
    const char *file = FRAME(C, .item = ITEM " 17 17");
    uint64_t(*row)[WORDS] = accepted("24: digits twice", C, file, 3, 0);
    CHECK("24: symbol and text",
          row[2][8] == 17 && says(file, row[2], 11, "17"));
    file = FRAME(C, .item = ITEM " 12345678901");
    row = accepted("24: eleven digits begin a text", C, file, 3, 0);
    CHECK("24: eleven digits begin a text",
          row[2][8] == 0 && says(file, row[2], 11, "12345678901"));
    file = FRAME(C, .item = ITEM " 12345678901 17");
    row = accepted("24: eleven digits and more", C, file, 3, 0);
    CHECK("24: eleven digits and more",
          row[2][8] == 0 && says(file, row[2], 11, "12345678901 17"));
    file = FRAME(C, .item = ITEM " led 17");
    row = accepted("24: no digits", C, file, 3, 0);
    CHECK("24: no digits",
          row[2][8] == 0 && says(file, row[2], 11, "led 17"));
    file = FRAME(C, .item = ITEM " 17a");
    row = accepted("24: digits and a letter", C, file, 3, 0);
    CHECK("24: digits and a letter",
          row[2][8] == 0 && says(file, row[2], 11, "17a"));
    row = accepted("24: the symbol alone", C,
                   FRAME(C, .item = ITEM " 0000000017"), 3, 0);
    CHECK("24: the symbol alone", row[2][8] == 17 && no_texts(row[2]));
    refused("24: two spaces", C, FRAME(C, .item = ITEM "  led"), 4, 4, 21);
    refused("24: a space first behind the symbol", C,
            FRAME(C, .item = ITEM " 17  led"), 4, 4, 24);
    row = accepted("24: AV: alone", C, FRAME(C, .item = ITEM " AV:"), 3, 0);
    CHECK("24: AV: alone", no_texts(row[2]) != NULL);
}

static void names_of_c_24(void)
{
    const char *file = FRAME(C, .item = ITEM " AV:NP:Jan");
    uint64_t(*row)[WORDS] = accepted("24: AV:NP:Jan", C, file, 3, 0);
    CHECK("24: AV:NP:Jan is a message",
          says(file, row[2], 11, "NP:Jan") && row[2][20] == 0);
    file = FRAME(C, .item = ITEM " 17 NP:Jan");
    row = accepted("24: NP: at the start", C, file, 3, 0);
    CHECK("24: a name alone",
          row[2][12] == 0 && says(file, row[2], 19, "Jan"));
    file = FRAME(C, .item = ITEM " NP:a|b|c|d|e NP:f");
    row = accepted("24: NP: at the start wins", C, file, 3, 0);
    CHECK("24: all of it is the name",
          row[2][12] == 0 && says(file, row[2], 19, "a|b|c|d|e NP:f"));
    file = FRAME(C, .item = ITEM " AV:" T36 "7890 zima NP:Jan");
    row = accepted("24: the mark behind a cut", C, file, 3, 1);
    CHECK("24: cut and named",
          says(file, row[2], 11, T35) && says(file, row[2], 19, "Jan"));
    file = FRAME(C, .item = ITEM " x NP:");
    row = accepted("24: an empty name", C, file, 3, 0);
    CHECK("24: an empty name",
          says(file, row[2], 11, "x") && row[2][19] == 0 && row[2][20] == 0);
    row = accepted("24: NP: alone", C, FRAME(C, .item = ITEM " NP:"), 3, 0);
    CHECK("24: NP: alone", no_texts(row[2]) != NULL);
}

static void marks_of_c_24(void)
{
    const char *file = FRAME(C, .item = ITEM " a|b|c|d NP:e|f NP:g");
    uint64_t(*row)[WORDS] =
        accepted("24: bars and marks in a name", C, file, 3, 0);
    CHECK("24: bars and marks in a name",
          says(file, row[2], 17, "d") && says(file, row[2], 19, "e|f NP:g"));
    file = FRAME(C, .item = ITEM " AV:a |b NP| NP:Jan ");
    row = accepted("24: near the mark", C, file, 3, 0);
    CHECK("24: near the mark",
          says(file, row[2], 11, "a ") && says(file, row[2], 13, "b NP") &&
              row[2][16] == 0 && says(file, row[2], 19, "Jan "));
    file = FRAME(C, .item = ITEM " AV:x  NP:Jan");
    row = accepted("24: two spaces before the mark", C, file, 3, 0);
    CHECK("24: one of them is the message's",
          says(file, row[2], 11, "x ") && says(file, row[2], 19, "Jan"));
    file = FRAME(C, .item = ITEM " AV NP:Jan");
    row = accepted("24: AV is no AV:", C, file, 3, 0);
    CHECK("24: AV is no AV:",
          says(file, row[2], 11, "AV") && says(file, row[2], 19, "Jan"));
}

static void cuts_of_c_24(void)
{
    refused("24: five parts", C, FRAME(C, .item = ITEM " AV:a|b|c|d|e"), 14, 4,
            21);
    refused("24: five empty parts before a name", C,
            FRAME(C, .item = ITEM " AV:|||| NP:Jan"), 14, 4, 21);
    const char *file =
        FRAME(C, .item = ITEM " AV:" T36 "|" T36 "|c|" T36 " NP:" T36);
    uint64_t(*row)[WORDS] = accepted("24: each cut warns", C, file, 3, 4);
    CHECK("24: each is cut",
          says(file, row[2], 11, T35) && says(file, row[2], 13, T35) &&
              says(file, row[2], 15, "c") && says(file, row[2], 17, T35) &&
              says(file, row[2], 19, T35));
    accepted("24: 35 bytes are not cut", C,
             FRAME(C, .item = ITEM " AV:" T35 " NP:" T35), 3, 0);
    accepted("24: a long name alone", C, FRAME(C, .item = ITEM " NP:" T36), 3,
             1);
}

void test_texts(void)
{
    bytes_21();
    each_byte_21();
    tail_of_s_22();
    tail_of_k_e_and_p_23(K);
    tail_of_k_e_and_p_23(E);
    tail_of_k_e_and_p_23(P);
    parts_of_k_e_and_p_23(K);
    parts_of_k_e_and_p_23(E);
    parts_of_k_e_and_p_23(P);
    symbols_of_c_24();
    names_of_c_24();
    marks_of_c_24();
    cuts_of_c_24();
}
