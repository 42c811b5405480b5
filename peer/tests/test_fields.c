/* Readings 11 to 20: fields of the account file's head, the group's head and
   items.  Each assertion is named by its reading's number. */
#include "check.h"

static void dividers_11(void)
{
    for (unsigned sheet = K; sheet <= P; sheet++) {
        refused("11: 706 alone", sheet, FRAME(sheet, .item = "706"), 5, 4, 0);
        refused("11: 705 alone", sheet, FRAME(sheet, .item = "705"), 4, 4, 3);
        refused("11: 1 1505", sheet, FRAME(sheet, .file = "1 1505"), 7, 2, 2);
        refused("11: 1 1501", sheet, FRAME(sheet, .file = "1 1501"), 4, 2, 6);
        refused("11: no bank", sheet, FRAME(sheet, .file = "1 1501 000000"), 4,
                2, 13);
        refused("11: 1 and a space", sheet, FRAME(sheet, .file = "1 "), 4, 2,
                2);
        /* Two spaces: on K, C and P no account, so 19-19 is a total. */
        refused("11: no date", sheet, FRAME(sheet, .group = "2 19-19 5001"), 4,
                3, sheet == S || sheet == E ? 12 : 2);
        refused("11: a zero amount before the line end", sheet,
                FRAME(sheet, .item = "705 0"), 6, 4, 4);
        refused("11: no variable symbol", sheet,
                FRAME(sheet, .item = "705 5001"), 4, 4, 8);
        refused("11: no bank field", sheet,
                FRAME(sheet, .item = "705 5001 42"), 4, 4, 11);
    }
}

static void dividers_12(void)
{
    for (unsigned sheet = K; sheet <= P; sheet++) {
        refused("12: a space behind BANK", sheet,
                FRAME(sheet, .file = sheet == K   ? "1 1501 000000 8100 "
                                     : sheet == S ? "1 1501 000000 0800 "
                                     : sheet == E ? "1 1501 000000 6100 "
                                                  : "1 1501 000000 0300 "),
                4, 2, 18);
        refused("12: a space behind DATE", sheet,
                FRAME(sheet, .group = "2 19-19 5001 020118 "), 4, 3, 19);
        refused("12: a doubled space", sheet,
                FRAME(sheet, .item = "705  5001 42 03000558"), 4, 4, 4);
        refused("12: a doubled space behind 1", sheet,
                FRAME(sheet, .file = "1  1501 000000 0300"), 4, 2, 2);
        refused("12: a doubled space before DATE", sheet,
                FRAME(sheet, .group = "2 19-19 5001  020118"), 4, 3, 13);
        if (sheet == S)
            continue;
        refused("12: a space behind the bank field", sheet,
                FRAME(sheet, .item = "705 5001 42 03000558 "), 4, 4, 21);
        refused("12: a space behind the symbol", sheet,
                FRAME(sheet, .item = "705 5001 42 03000558 17 "), 4, 4, 24);
        refused("12: two spaces behind the bank field", sheet,
                FRAME(sheet, .item = "705 5001 42 03000558  "), 4, 4, 21);
    }
}

static void kind_and_bank_13(void)
{
    static const char *const bad[] = {"150", "15011", "15O1", "", "1501x"};
    static const uint64_t last[] = {0, 1501, 1502, 1504, 1501, 1502};
    static const char *const banks[] = {"",     "8100", "0800",
                                        "0300", "6100", "0300"};
    char line[50];
    for (unsigned sheet = K; sheet <= P; sheet++) {
        for (size_t i = 0; i < 5; i++) {
            snprintf(line, sizeof line, "1 %s 000000 %s", bad[i], banks[sheet]);
            refused("13: KIND", sheet, FRAME(sheet, .file = line), 4, 2, 2);
        }
        for (uint64_t kind = 1500; kind <= 1505; kind++) {
            snprintf(line, sizeof line, "1 %d 000000 %s", (int)kind,
                     banks[sheet]);
            const char *file = FRAME(sheet, .file = line);
            if (kind >= 1501 && kind <= last[sheet])
                CHECK("13: kind's word", accepted("13: kind", sheet, file, 3,
                                                  0)[0][1] == kind);
            else
                refused("13: kind not on the sheet", sheet, file, 7, 2, 2);
        }
        refused("13: BANK of three", sheet,
                FRAME(sheet, .file = "1 1501 000000 030"), 4, 2, 14);
        refused("13: BANK of five", sheet,
                FRAME(sheet, .file = "1 1501 000000 03000"), 4, 2, 14);
        refused("13: BANK's bytes", sheet,
                FRAME(sheet, .file = "1 1501 000000 03O0"), 4, 2, 14);
        refused("13: NUMBER of five", sheet,
                FRAME(sheet, .file = "1 1501 00000 0300"), 4, 2, 7);
        refused("13: NUMBER of seven", sheet,
                FRAME(sheet, .file = "1 1501 0000000 0300"), 4, 2, 7);
        if (sheet == C)
            accepted("13: any bank on C", sheet,
                     FRAME(sheet, .file = "1 1501 000000 9999"), 3, 0);
        else
            refused("13: another bank", sheet,
                    FRAME(sheet, .file = "1 1501 000000 9999"), 8, 2, 14);
    }
}

#define SINGLE_ITEM "19-19 705 5001 42 03000558"

static void payer_by_spaces_14(void)
{
    static const unsigned by_spaces[] = {K, C, P};
    for (int i = 0; i < 3; i++) {
        unsigned sheet = by_spaces[i];
        uint64_t(*row)[WORDS] =
            accepted("14: two spaces, no account", sheet,
                     FRAME(sheet, .group = "2 5001 020118",
                           .item = SINGLE_ITEM), 3, 0);
        CHECK("14: single", row[1][2] == 0 && row[1][3] == 0 &&
                                row[2][1] == 19 && row[2][2] == 19);
        refused("14: a trailing space counts", sheet,
                FRAME(sheet, .group = "2 5001 020118 "), 5, 3, 2);
        refused("14: a doubled space counts", sheet,
                FRAME(sheet, .group = "2  5001 020118"), 4, 3, 2);
        refused("14: a doubled space inside counts", sheet,
                FRAME(sheet, .group = "2 5001  020118"), 5, 3, 2);
        refused("14: one space", sheet, FRAME(sheet, .group = "2 5001"), 4, 3,
                6);
        refused("14: nothing", sheet, FRAME(sheet, .group = "2 "), 4, 3, 2);
        refused("14: 19-19 is no total", sheet,
                FRAME(sheet, .group = "2 19-19 020118"), 4, 3, 2);
    }
}

static void payer_by_field_14(void)
{
    static const unsigned by_field[] = {S, E};
    for (int i = 0; i < 2; i++) {
        unsigned sheet = by_field[i];
        const char *item = sheet == S ? SINGLE_ITEM "  " : SINGLE_ITEM;
        uint64_t(*row)[WORDS] = accepted(
            "14: an empty field", sheet,
            FRAME(sheet, .group = "2  5001 020118", .item = item), 3, 0);
        CHECK("14: single", row[1][2] == 0 && row[1][3] == 0 &&
                                row[2][1] == 19 && row[2][2] == 19);
        refused("14: the first field is the account", sheet,
                FRAME(sheet, .group = "2 5001 020118"), 5, 3, 2);
        refused("14: nothing", sheet, FRAME(sheet, .group = "2 "), 4, 3, 2);
        refused("14: an account alone", sheet, FRAME(sheet, .group = "2 19-19"),
                4, 3, 7);
        refused("14: three spaces", sheet, FRAME(sheet, .group = "2   5001"), 4,
                3, 3);
        refused("14: total and no date", sheet,
                FRAME(sheet, .group = "2  5001"), 4, 3, 7);
    }
}

static void zeros_15(void)
{
    static const char *const zeros[] = {
        "0", "00", "00000000000000000", "0-0", "000000-0000000000", "0-00",
    };
    /* On S, C and P: 5, or 4 by the length. */
    static const unsigned on_s[] = {5, 5, 4, 5, 5, 5};
    static const unsigned on_c_and_p[] = {5, 5, 4, 5, 5, 5};
    static const char *const more[] = {
        "000000000000000000", "0000000-0", "0-00000000000", "0-", "-0", "0-0-0",
    };
    char line[80];
    for (size_t i = 0; i < 6; i++) {
        snprintf(line, sizeof line, "2 %s 5001 020118", zeros[i]);
        uint64_t(*row)[WORDS] =
            accepted("15: zeros on K", K,
                     FRAME(K, .group = line, .item = SINGLE_ITEM), 3, 0);
        CHECK("15: no payer", row[1][2] == 0 && row[1][3] == 0);
        row = accepted("15: zeros on E", E,
                       FRAME(E, .group = line, .item = SINGLE_ITEM), 3, 0);
        CHECK("15: no payer", row[1][2] == 0 && row[1][3] == 0);
        refused("15: zeros on S", S, FRAME(S, .group = line), on_s[i], 3, 2);
        refused("15: zeros on C", C, FRAME(C, .group = line), on_c_and_p[i], 3,
                2);
        refused("15: zeros on P", P, FRAME(P, .group = line), on_c_and_p[i], 3,
                2);
        snprintf(line, sizeof line, "2 %s 5001 020118", more[i]);
        for (unsigned sheet = K; sheet <= P; sheet++)
            refused("15: too many zeros", sheet, FRAME(sheet, .group = line), 4,
                    3, 2);
    }
}

static void zeros_elsewhere_15(void)
{
    refused("15: 16 zeros on C", C,
            FRAME(C, .group = "2 0000000000000000 5001 020118"), 5, 3, 2);
    refused("15: 16 zeros on P", P,
            FRAME(P, .group = "2 0000000000000000 5001 020118"), 5, 3, 2);
    refused("15: 11 zeros on S", S,
            FRAME(S, .group = "2 00000000000 5001 020118"), 4, 3, 2);
    refused("15: zeros in a K item", K,
            FRAME(K, .item = "0 5001 42 03000558"), 4, 4, 0);
    refused("15: two zeros in a K item", K,
            FRAME(K, .item = "00 5001 42 03000558"), 5, 4, 0);
    refused("15: zeros as an item's payer on E", E,
            FRAME(E, .group = "2  5001 020118",
                  .item = "0 705 5001 42 03000558"), 5, 4, 0);
    refused("15: a zero and a letter", K,
            FRAME(K, .group = "2 0x 5001 020118"), 4, 3, 2);
}

static void two_digits_16(void)
{
    refused("16: 9", K, FRAME(K, .item = "9 5001 42 03000558"), 4, 4, 0);
    refused("16: 09", K, FRAME(K, .item = "09 5001 42 03000558"), 5, 4, 0);
    refused("16: 19-9", K, FRAME(K, .item = "19-9 5001 42 03000558"), 4, 4, 0);
    refused("16: 19-09", K, FRAME(K, .item = "19-09 5001 42 03000558"), 5, 4,
            0);
    refused("16: the group's 9", K, FRAME(K, .group = "2 9 5001 020118"), 4, 3,
            2);
    refused("16: one digit elsewhere", E,
            FRAME(E, .item = "19-9 5001 42 03000558"), 5, 4, 0);
    refused("16: one digit on P", P,
            FRAME(P, .item = "19-9 5001 42 03000558"), 5, 4, 0);
    accepted("16: a prefix of one digit", K,
             FRAME(K, .item = "0-19 5001 42 03000558"), 3, 0);
}

static void amounts_17(void)
{
    refused("17: S item of 13 digits", S,
            FRAME(S, .item = "705 0000000005001 42 03000558  "), 4, 4, 4);
    accepted("17: S item of 12 digits", S,
             FRAME(S, .item = "705 000000005001 42 03000558  "), 3, 0);
    accepted("17: 14 digits", K,
             FRAME(K, .group = "2 19-19 00000000005001 020118",
                   .item = "705 00000000005001 42 03000558"), 3, 0);
    for (unsigned sheet = K; sheet <= P; sheet++) {
        refused("17: 15 digits", sheet,
                FRAME(sheet, .item = "705 000000000005001 42 03000558"), 4, 4,
                4);
        refused("17: total of 15 digits", sheet,
                FRAME(sheet, .group = "2 19-19 000000000005001 020118"), 4, 3,
                8);
        refused("17: 20 digits and more", sheet,
                FRAME(sheet, .item = "705 18446744073709556617 42 03000558"), 4,
                4, 4);
        refused("17: zeros are zero", sheet,
                FRAME(sheet, .item = "705 000000000000 42 03000558"), 6, 4, 4);
        if (sheet != E)
            refused("17: a comma elsewhere", sheet,
                    FRAME(sheet, .item = "705 50,01 42 03000558"), 4, 4, 4);
    }
    accepted("17: the largest amount on C", C,
             FRAME(C, .group = "2 19-19 99999999999999 020118",
                   .item = "705 99999999999999 42 03000558"), 3, 0);
    accepted("17: the largest amount on P", P,
             FRAME(P, .group = "2 19-19 99999999999999 020118",
                   .item = "705 99999999999999 42 03000558"), 3, 0);
}

static void amounts_of_e_17(void)
{
    uint64_t(*row)[WORDS] =
        accepted("17: comma in item and total", E,
                 FRAME(E, .group = "2 19-19 50,01 020118",
                       .item = "705 00000000050,01 42 03000558"), 3, 0);
    CHECK("17: 50,01 is 5001", row[2][6] == 5001);
    refused("17: 15 bytes with the comma", E,
            FRAME(E, .item = "705 000000000050,01 42 03000558"), 4, 4, 4);
    refused("17: total of 15 bytes", E,
            FRAME(E, .group = "2 19-19 000000000050,01 020118"), 4, 3, 8);
    refused("17: three digits behind the comma", E,
            FRAME(E, .item = "705 50,010 42 03000558"), 4, 4, 4);
    refused("17: two commas", E,
            FRAME(E, .item = "705 5,00,01 42 03000558"), 4, 4, 4);
    refused("17: only a comma", E, FRAME(E, .item = "705 , 42 03000558"), 4, 4,
            4);
    refused("17: a comma at the end", E,
            FRAME(E, .item = "705 50, 42 03000558"), 4, 4, 4);
    refused("17: a point", E, FRAME(E, .item = "705 50.01 42 03000558"), 4, 4,
            4);
    refused("17: 0,00", E, FRAME(E, .item = "705 0,00 42 03000558"), 6, 4, 4);
    accepted("17: the largest item", E,
             FRAME(E, .group = "2 19-19 999999999999 020118",
                   .item = "705 999999999999 42 03000558"), 3, 0);
    refused("17: 10^12", E, FRAME(E, .item = "705 1000000000000 42 03000558"),
            6, 4, 4);
    refused("17: 10^12 with a comma", E,
            FRAME(E, .item = "705 10000000000,00 42 03000558"), 6, 4, 4);
    accepted("17: zeros in front of an item", E,
             FRAME(E, .item = "705 00000000005001 42 03000558"), 3, 0);
}

static void odd_totals_17(void)
{
    refused("17: a total of 0 on K", K, FRAME(K, .group = "2 19-19 0 020118"),
            10, 3, 8);
    refused("17: a total of 0 on P", P, FRAME(P, .group = "2 19-19 0 020118"),
            10, 3, 8);
    refused("17: a large total on S", S,
            FRAME(S, .group = "2 19-19 99999999999999 020118"), 10, 3, 8);
    accepted("17: a total of 0 on C", C, FRAME(C, .group = "2 19-19 0 020118"),
             3, 1);
    accepted("17: a large total on E", E,
             FRAME(E, .group = "2 19-19 99999999999999 020118"), 3, 1);
    accepted("17: a total of 0,00 on E", E,
             FRAME(E, .group = "2 19-19 0,00 020118"), 3, 1);
}

static void totals_18(void)
{
    refused("18: a later item's fault comes first", K,
            FRAME(K, .group = "2 19-19 1 020118",
                  .item = "705 5001 42 03000558\n706"), 5, 5, 0);
    refused("18: the closing line's fault comes first", K,
            FRAME(K, .group = "2 19-19 1 020118", .close = "3 x"), 4, 5, 2);
    refused("18: 10 before the next line", K,
            FRAME(K, .group = "2 19-19 1 020118", .end = "705"), 10, 3, 8);
    const char *file = FRAME(K, .group = "2 19-19 1 020118");
    refused_bytes("18: 10 before an early end", K, TODAY, file,
                  strstr(file, "3 +") - file + 3, 10, 3,
                  offset_of(file, strlen(file), 3, 8));
    refused_bytes("18: an early end without the closing line", K, TODAY, file,
                  strstr(file, "3 +") - file, 3, 5,
                  (size_t)(strstr(file, "3 +") - file));
    refused("18: the total's place, single on K", K,
            FRAME(K, .group = "2 1 020118", .item = SINGLE_ITEM), 10, 3, 2);
    refused("18: the total's place, single on P", P,
            FRAME(P, .group = "2 1 020118", .item = SINGLE_ITEM), 10, 3, 2);
    refused("18: the total's place, single on S", S,
            FRAME(S, .group = "2  1 020118", .item = SINGLE_ITEM "  "), 10, 3,
            3);
    refused("18: the total's place, zeros on K", K,
            FRAME(K, .group = "2 0-00 1 020118", .item = SINGLE_ITEM), 10, 3,
            7);
}

static void sums_18(void)
{
    refused("18: the sum passes on C", C,
            FRAME(C, .item = "705 99999999999999 0 03000558\n"
                             "705 1 0 03000558"), 10, 3, 8);
    refused("18: the sum passes on K", K,
            FRAME(K, .group = "2 19-19 99999999999999 020118",
                  .item = "705 99999999999999 0 03000558\n705 1 0 03000558"),
            10, 3, 8);
    refused("18: the sum passes on P", P,
            FRAME(P, .group = "2 19-19 99999999999999 020118",
                  .item = "705 99999999999999 0 03000558\n705 1 0 03000558"),
            10, 3, 8);
    char items[4000] = "";
    for (int i = 0; i < 101; i++)
        strcat(items, i < 100 ? "705 999999999999 0 03000558\n"
                              : "705 999999999999 0 03000558");
    refused("18: the sum passes on E", E, FRAME(E, .item = items), 10, 3, 8);
    items[strlen(items) - strlen("\n705 999999999999 0 03000558")] = 0;
    accepted("18: 100 such items do not pass", E, FRAME(E, .item = items), 102,
             1);
    accepted("18: items are added, not the heads", K,
             FRAME(K, .group = "2 19-19 10002 020118",
                   .item = "705 5001 42 03000558\n705 5001 42 03000558"), 4, 0);
    refused("18: the second group's own total", K,
            FRAME(K, .close = "3 +\n2 19-19 10002 020118\n705 5001 42 03000558"
                              "\n3 +"), 10, 6, 8);
}

/* C and P: both lengths, and a past day warns. */
static void due_dates_19(unsigned sheet)
{
    uint64_t(*row)[WORDS] =
        accepted("19: RRRRMMDD", sheet,
                 FRAME(sheet, .group = "2 19-19 5001 20180102"), 3, 0);
    CHECK("19: RRRRMMDD", row[1][1] == 20180102);
    refused("19: 1999", sheet, FRAME(sheet, .group = "2 19-19 5001 19991231"),
            11, 3, 13);
    refused("19: 2100", sheet, FRAME(sheet, .group = "2 19-19 5001 21000101"),
            11, 3, 13);
    refused("19: seven digits", sheet,
            FRAME(sheet, .group = "2 19-19 5001 2018012"), 4, 3, 13);
    refused("19: nine digits", sheet,
            FRAME(sheet, .group = "2 19-19 5001 201801020"), 4, 3, 13);
    refused("19: five digits", sheet,
            FRAME(sheet, .group = "2 19-19 5001 20118"), 4, 3, 13);
    accepted("19: once a group", sheet,
             FRAME(sheet, .group = "2 19-19 10002 311217",
                   .item = "705 5001 42 03000558\n705 5001 42 03000558"), 4, 1);
    accepted("19: a past year", sheet,
             FRAME(sheet, .group = "2 19-19 5001 20000101"), 3, 1);
    accepted("19: 365 ahead", sheet,
             FRAME(sheet, .group = "2 19-19 5001 010119"), 3, 0);
    refused("19: 366 ahead", sheet,
            FRAME(sheet, .group = "2 19-19 5001 020119"), 11, 3, 13);
    accepted_on("19: the last day", sheet, 20991231,
                FRAME(sheet, .group = "2 19-19 5001 311299"), 3, 0);
}

static void past_and_far_19(void)
{
    static const unsigned others[] = {K, S, E};
    for (int i = 0; i < 3; i++)
        refused("19: RRRRMMDD elsewhere", others[i],
                FRAME(others[i], .group = "2 19-19 5001 20180102"), 4, 3, 13);
    for (unsigned sheet = K; sheet <= P; sheet++)
        accepted("19: today is not past", sheet,
                 FRAME(sheet, .group = "2 19-19 5001 010118"), 3, 0);
    refused("19: past on K", K, FRAME(K, .group = "2 19-19 5001 311217"), 11, 3,
            13);
    refused("19: past on S", S, FRAME(S, .group = "2 19-19 5001 311217"), 11, 3,
            13);
    accepted("19: past on E, no warning", E,
             FRAME(E, .group = "2 19-19 5001 010100"), 3, 0);
    accepted("19: far on S", S, FRAME(S, .group = "2 19-19 5001 311299"), 3, 0);
    accepted("19: far on E", E, FRAME(E, .group = "2 19-19 5001 311299"), 3, 0);
}

static void bank_field_20(void)
{
    static const struct {
        const char *field;
        unsigned on_k, elsewhere;
    } faults[] = {
        {"3000558", 4, 4},     {"00003000558", 4, 4}, {"0300055x", 4, 4},
        {"00000558", 12, 12},  {"000000558", 12, 12}, {"9900000558", 12, 12},
        {"1000000558", 12, 12}, {"1003000558", 13, 13}, {"1703000558", 13, 13},
        {"103000558", 0, 13},  {"0103000558", 0, 13}, {"0903000558", 0, 13},
    };
    char line[80];
    for (size_t i = 0; i < sizeof faults / sizeof *faults; i++)
        for (unsigned sheet = K; sheet <= P; sheet++) {
            unsigned number = sheet == K ? faults[i].on_k : faults[i].elsewhere;
            snprintf(line, sizeof line, "705 5001 42 %s%s", faults[i].field,
                     sheet == S ? "  " : "");
            if (number != 0)
                refused("20: bank field", sheet, FRAME(sheet, .item = line),
                        number, 4, 12);
        }
}

static void priority_20(void)
{
    static const uint64_t digits[][2] = {{0, 5}, {1, 5}, {2, 5}, {3, 3}, {4, 4},
                                         {5, 5}, {6, 6}, {7, 7}, {8, 8}, {9, 9}};
    char line[80];
    for (size_t i = 0; i < 10; i++) {
        uint64_t warns = i == 1 || i == 2;
        snprintf(line, sizeof line, "705 5001 42 %d03000558", (int)i);
        CHECK("20: nine digits on K",
              accepted("20: nine digits on K", K, FRAME(K, .item = line), 3,
                       warns)[2][10] == digits[i][1]);
        snprintf(line, sizeof line, "705 5001 42 0%d03000558", (int)i);
        CHECK("20: ten digits on K",
              accepted("20: ten digits on K", K, FRAME(K, .item = line), 3,
                       warns)[2][10] == digits[i][1]);
    }
    uint64_t(*row)[WORDS] =
        accepted("20: ten digits on C", C,
                 FRAME(C, .item = "705 5001 42 0003000558"), 3, 0);
    CHECK("20: bank and constant symbol",
          row[2][5] == 300 && row[2][9] == 558 && row[2][10] == 5);
    row = accepted("20: nine digits on S", S,
                   FRAME(S, .item = "705 5001 42 099990000  "), 3, 0);
    CHECK("20: bank 9999, no constant symbol",
          row[2][5] == 9999 && row[2][9] == 0);
}

void test_fields(void)
{
    dividers_11();
    dividers_12();
    kind_and_bank_13();
    payer_by_spaces_14();
    payer_by_field_14();
    zeros_15();
    zeros_elsewhere_15();
    two_digits_16();
    amounts_17();
    amounts_of_e_17();
    odd_totals_17();
    totals_18();
    sums_18();
    due_dates_19(C);
    due_dates_19(P);
    past_and_far_19();
    bank_field_20();
    priority_20();
}
