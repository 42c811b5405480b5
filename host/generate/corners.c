#include "corners.h"
#include "plain.h"
#include "plan.h"

/* A line that is kept on a stack of 64 KiB does not fit there. */
enum { LONG = 1 << 17, LONGEST = 1 << 20 };

static const char *const short_files[] = {
    "", "\n", "\r", "\r\n", "\n\r", "\r\r", "\n\n", "\r\r\n", "\r\n\n", "U",
    "UHL", "UHL1", "UHL1\r", "UHL1\n", "UHL1\r\n", "UHL1\n\r", "UHL1\r\r\n",
    "UHL1 ", "1 ", "2 ", "3 ", "3+", "5 ", "5+", "3", "5", "1", "2", " ", "+",
    "UHL1\n1 1501 000000 0300", "UHL1\n1 ", "UHL1\n1 1501 000000 0300\n2 ",
};

/* A long line, or one with a short start. */
static const struct {
    const char *before, *behind;
} places[] = {
    {"UHL1", "\n"},
    {"UHL1010118FIRMA               1234567890000999", "\n"},
    {"FIRST1 ", "\n"},
    {"FIRST1 1501 ", "\n"},
    {"FIRST1 1501 000000 ", "\n"},
    {"FIRSTHEAD2 ", "\n"},
    {"FIRSTHEAD2 19-19 ", "\n"},
    {"FIRSTHEAD2 19-19 5001 ", "\n"},
    {"FIRSTHEADGROUP", "\n3 +\n5 +\n"},
    {"FIRSTHEADGROUP19-", "\n3 +\n5 +\n"},
    {"FIRSTHEADGROUP705 ", "\n3 +\n5 +\n"},
    {"FIRSTHEADGROUP705 5001 ", "\n3 +\n5 +\n"},
    {"FIRSTHEADGROUP705 5001 42 ", "\n3 +\n5 +\n"},
    {"FIRSTHEADGROUP705 5001 42 03000558 ", "\n3 +\n5 +\n"},
    {"FIRSTHEADGROUP705 5001 42 03000558 17 ", "\n3 +\n5 +\n"},
    {"FIRSTHEADGROUP705 5001 42 03000558 17 AV:", "\n3 +\n5 +\n"},
    {"FIRSTHEADGROUP705 5001 42 03000558 17 AV:", " NP:Jan\n3 +\n5 +\n"},
    {"FIRSTHEADGROUP705 5001 42 03000558 17 NP:", "\n3 +\n5 +\n"},
    {"FIRSTHEADGROUP705 5001 42 03000558 17 AV:|||a NP:", "\n3 +\n5 +\n"},
    {"FIRSTHEADGROUPITEM3 +", "\n5 +\n"},
    {"FIRSTHEADGROUPITEM3 +\n5 +", "\n"},
    {"FIRSTHEADGROUPITEM3 +\n5 +\n", ""},
};

/* Letters stand for whole lines of the sheet's frame. */
static void put_frame(struct text *t, unsigned sheet, const char *words)
{
    if (words[0] == 'F') {
        put_plain_first(t, sheet);
        text_byte(t, '\n');
        words += 5;
    }
    if (words[0] == 'H') {
        put_plain_file(t, sheet, PAYMENTS, 0);
        text_byte(t, '\n');
        words += 4;
    }
    if (words[0] == 'G') {
        text_words(t, "2 19-19 5001 020118\n");
        words += 5;
    }
    if (words[0] == 'I') {
        text_words(t, "705 5001 42 03000558");
        text_words(t, sheet == S ? "  \n" : "\n");
        words += 4;
    }
    text_words(t, words);
}

bool corner_file(struct made *made, unsigned sheet, unsigned place)
{
    static const uint8_t fillers[] = {'x', '0', '1', '9', ' ', '-', '|', ',',
                                      '+', 0, 127, 200, '\n', '\r'};
    struct text *t = &made->file;
    made->sheet = sheet;
    made->today = PLAIN_TODAY;
    text_clear(t);
    if (place < COUNT_OF(short_files)) {
        text_words(t, short_files[place]);
        return true;
    }
    place -= (unsigned)COUNT_OF(short_files);
    if (place < 256) {
        text_repeat(t, (uint8_t)place, LONG);
        return true;
    }
    place -= 256;
    if (place >= COUNT_OF(places) * COUNT_OF(fillers))
        return false;
    size_t filler = place % COUNT_OF(fillers);
    put_frame(t, sheet, places[place / COUNT_OF(fillers)].before);
    text_repeat(t, fillers[filler], filler == 0 ? LONGEST : LONG);
    text_words(t, places[place / COUNT_OF(fillers)].behind);
    return true;
}
