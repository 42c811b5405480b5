/*
 * The letters of host/common/letters.c against the C library's own iconv: every byte of Windows-1250, every letter of Unicode there and
 * back, and UTF-8 of every letter and of bytes that are none.  Each letter that is shown takes one column.  It is built for the machine
 * at hand, whose C library has the tables.
 */
#define _GNU_SOURCE /* for wcwidth and open_memstream */
#include "letters.h"

#include <iconv.h>
#include <locale.h>
#include <stdlib.h>
#include <string.h>
#include <wchar.h>

enum { LAST = 0x10ffff };

static unsigned long passed, failed, told;

/* A sweep over many letters is one check: what failed in it is told, at most twenty times. */
static bool wrong;

static void look(bool good, const char *what, uint32_t number)
{
    wrong = wrong || !good;
    if (!good && told++ < 20)
        printf("failed: %s: %lx\n", what, (unsigned long)number);
}

static void sweep(void (*over)(void))
{
    wrong = false;
    over();
    if (wrong)
        failed++;
    else
        passed++;
}

/* Bytes of one encoding in another, by iconv; the count of bytes, or 0 if there is no such letter. */
static size_t by_iconv(iconv_t how, const void *from, size_t len, uint8_t to[8])
{
    char *in = (char *)from, *out = (char *)to;
    size_t in_left = len, out_left = 8;
    iconv(how, NULL, NULL, NULL, NULL);
    if (iconv(how, &in, &in_left, &out, &out_left) != 0 || in_left != 0)
        return 0;
    return 8 - out_left;
}

static iconv_t between(const char *to, const char *from)
{
    iconv_t how = iconv_open(to, from);
    if (how == (iconv_t)-1) {
        printf("There is no iconv from %s to %s here.\n", from, to);
        exit(2);
    }
    return how;
}

static void every_byte(void)
{
    iconv_t how = between("UTF-32LE", "CP1250");
    unsigned none = 0;
    for (unsigned byte = 0; byte < 256; byte++) {
        uint8_t one = (uint8_t)byte, out[8] = {0};
        uint32_t letter = NO_LETTER;
        if (by_iconv(how, &one, 1, out) == 4)
            letter = out[0] | (uint32_t)out[1] << 8 | (uint32_t)out[2] << 16;
        none += letter == NO_LETTER;
        look(letter_of_1250(one) == letter, "the letter of a byte", byte);
    }
    look(none == 5, "bytes with no letter", none);
    iconv_close(how);
}

static void every_letter(void)
{
    iconv_t how = between("CP1250", "UTF-32LE");
    for (uint32_t letter = 0; letter <= LAST; letter++) {
        uint8_t in[4] = {(uint8_t)letter, (uint8_t)(letter >> 8), (uint8_t)(letter >> 16), 0}, out[8];
        int byte = by_iconv(how, in, 4, out) == 1 ? out[0] : NO_BYTE;
        look(byte_in_1250(letter) == byte, "the byte of a letter", letter);
    }
    iconv_close(how);
}

/* The bytes that a letter is written with, by put_utf8. */
static size_t written(uint32_t letter, uint8_t to[8])
{
    char *bytes = NULL;
    size_t len = 0;
    FILE *out = open_memstream(&bytes, &len);
    put_utf8(out, letter);
    fclose(out);
    memcpy(to, bytes, len < 8 ? len : 8);
    free(bytes);
    return len;
}

static void utf8_of_every_letter(void)
{
    iconv_t how = between("UTF-8", "UTF-32LE");
    for (uint32_t letter = 0; letter <= LAST; letter++) {
        uint8_t in[4] = {(uint8_t)letter, (uint8_t)(letter >> 8), (uint8_t)(letter >> 16), 0}, out[8], own[8];
        size_t len = by_iconv(how, in, 4, out);
        if (len == 0)
            continue; /* half of a pair */
        uint32_t back = 0;
        look(written(letter, own) == len && memcmp(out, own, len) == 0, "a letter written", letter);
        look(take_utf8(out, len, &back) == len && back == letter, "a letter taken", letter);
        look(len == 1 || take_utf8(out, len - 1, &back) == 0, "a letter cut short", letter);
    }
    iconv_close(how);
}

/* All of two bytes, and of more those at the edges of what is allowed. */
static void bytes_that_may_be_none(void)
{
    static const uint8_t edges[] = {0x00, 0x41, 0x7f, 0x80, 0x8f, 0x90, 0x9f, 0xa0, 0xbf, 0xc0, 0xff};
    enum { EDGES = sizeof edges };
    iconv_t how = between("UTF-32LE", "UTF-8");
    for (uint32_t i = 0; i < 65536U * EDGES * EDGES; i++) {
        uint8_t in[4] = {(uint8_t)(i & 0xff), (uint8_t)(i >> 8 & 0xff), edges[i / 65536 % EDGES], edges[i / 65536 / EDGES]}, out[8];
        uint32_t letter;
        size_t len = take_utf8(in, 4, &letter), due = 0;
        for (size_t n = 1; n <= 4 && due == 0; n++)
            due = by_iconv(how, in, n, out) == 4 ? n : 0;
        look(len == due, "bytes taken as a letter", i);
        i += i % 65536 < 0x100 ? 0 : 6; /* a seventh of them is enough */
    }
    iconv_close(how);
}

static void every_column(void)
{
    for (unsigned byte = 0; byte < 256; byte++) {
        uint8_t one = (uint8_t)byte;
        char *bytes = NULL;
        size_t len = 0;
        FILE *out = open_memstream(&bytes, &len);
        uint32_t letter = 0;
        show_1250(out, &one, 1);
        fclose(out);
        look(take_utf8((uint8_t *)bytes, len, &letter) == len && len > 0, "a byte is shown as one letter", byte);
        look(wcwidth((wchar_t)letter) == 1, "a letter takes one column", byte);
        bool seen = byte >= 32 && byte != 127 && byte != 0xa0 && byte != 0xad;
        look(letter == (seen ? letter_of_1250(one) : NO_LETTER), "a byte is shown as its letter, or as none", byte);
        free(bytes);
    }
}

static void likely_utf8(void)
{
    static const struct {
        const char *text;
        bool likely;
    } texts[] = {
        {"", false},
        {"Mzda", false},
        {"P\xc5\x99\xc3\xadli\xc5\xa1", true},     /* in UTF-8 */
        {"P\xf8\xedli\x9a", false},                /* the same in Windows-1250 */
        {"k\xc5\xaf\xc5", true},                   /* cut within a letter */
        {"k\xc5", false},                          /* one letter of Windows-1250 alone */
        {"k\xc5\xaf a \xf8", false},               /* both: a bank's byte behind */
        {"\xc3\xa9|\xc3\xa9", true},
    };
    for (size_t i = 0; i < sizeof texts / sizeof *texts; i++)
        look(looks_like_utf8((const uint8_t *)texts[i].text, strlen(texts[i].text)) == texts[i].likely, "looks like UTF-8",
              (uint32_t)i);
}

int main(void)
{
    if (setlocale(LC_ALL, "C.UTF-8") == NULL) {
        printf("There is no locale C.UTF-8 here.\n");
        return 2;
    }
    sweep(every_byte);
    sweep(every_letter);
    sweep(utf8_of_every_letter);
    sweep(bytes_that_may_be_none);
    sweep(every_column);
    sweep(likely_utf8);
    printf("%lu passed, %lu failed\n", passed, failed);
    return failed != 0;
}
