/* The whole run of document 01, readings 31 and 32, and rooms for text. */
#include "check.h"

#define CRLF "\r\n"

static const char RUN_IN[] = "C 010118\n"
                             "UHL1\n"
                             "1 1501 000000 0300\n"
                             "2 005001 20180102\n"
                             "19-19 705 5001 0042 03000558 0000017 led\n"
                             "3+\n"
                             "5+\n";
static const char RUN_OUT[] = "UHL1" CRLF
                              "1 1501 000000 0300" CRLF
                              "2 5001 020118" CRLF
                              "19-19 705 5001 42 03000558 17 AV:led" CRLF
                              "3 +" CRLF
                              "5 +" CRLF;

/* Rewrites with guards and wants these bytes; with one byte less room, 16. */
static void rewrites_bytes(const char *what, const char *in, size_t in_len,
                           const char *out, size_t out_len)
{
    uint8_t *room = malloc(out_len + 20), *copy = malloc(in_len + 1);
    bool whole = true;
    if (room == NULL || copy == NULL)
        exit(2);
    memcpy(copy, in, in_len);
    memset(room, 0xa5, out_len + 20);
    struct peer_text t = peer_rewrite(copy, in_len, room + 10, out_len - 1);
    CHECK(what, t.number == 16 && t.bytes == out_len);
    for (size_t i = 0; i < out_len + 20; i++)
        whole = whole && room[i] == 0xa5;
    CHECK(what, whole);
    t = peer_rewrite(copy, in_len, room + 10, out_len);
    bool right = t.number == 0 && t.bytes == out_len &&
                 memcmp(room + 10, out, out_len) == 0;
    CHECK(what, right);
    if (!right)
        printf("  got %d with %d bytes: %.*s\n", (int)t.number, (int)t.bytes,
               t.number == 0 && t.bytes < 200 ? (int)t.bytes : 0,
               (const char *)room + 10);
    for (size_t i = 0; i < 10; i++)
        whole = whole && room[i] == 0xa5 && room[10 + out_len + i] == 0xa5;
    CHECK(what, whole);
    free(room);
    free(copy);
}

static void rewrites(const char *what, const char *in, const char *out)
{
    rewrites_bytes(what, in, strlen(in), out, strlen(out));
}

static void run(void)
{
    rewrites("the whole run", RUN_IN, RUN_OUT);
    char again[300];
    snprintf(again, sizeof again, "C 010118\r\n%s", RUN_OUT);
    rewrites("the run's output once more", again, RUN_OUT);
    uint64_t(*row)[WORDS] =
        accepted("the run's file", C, RUN_IN + strlen("C 010118\n"), 3, 0);
    CHECK("the run's rows", row[1][1] == 20180102 && row[2][1] == 19 &&
                                row[2][4] == 705 && row[2][6] == 5001 &&
                                row[2][7] == 42 && row[2][8] == 17);
}

static void order_line_31(void)
{
    static const char *const ones[] = {"", "X", "c 010118\n", "p 010118\n",
                                       " C 010118\n", "\n", "1 010118\n",
                                       "\x80"};
    static const char *const twos[] = {
        "C",           "C\n",          "C ",           "C 0101",
        "C 01011",     "C 0101189\n",  "C 010118 \n",  "C  010118\n",
        "CX 010118\n", "C-010118\n",   "C 320118\n",   "C 290223\n",
        "C 000000\n",  "C 20180101\n", "C 01O118\n",   "C\r\n010118\n",
        "K 011318\n",  "S\t010118\n",
    };
    for (size_t i = 0; i < sizeof ones / sizeof *ones; i++)
        rewrites("31: the first byte", ones[i], "refused 1 line 0 byte 0\n");
    for (size_t i = 0; i < sizeof twos / sizeof *twos; i++)
        rewrites("31: the rest of the line", twos[i],
                 "refused 2 line 0 byte 0\n");
    static const char *const empty[] = {"K 010118", "S 010118\n", "C 010118\r",
                                        "E 010118\r\n", "P 010118\n"};
    for (size_t i = 0; i < 5; i++)
        rewrites("31: an empty file", empty[i], "refused 3 line 1 byte 0\n");
    rewrites("31: LF CR is two ends", "C 010118\n\rUHL1",
             "refused 3 line 1 byte 0\n");
    rewrites("31: places count in the file", "C 010118\r\nUHL1\r\n1 1505\r\n",
             "refused 7 line 2 byte 8\n");
    rewrites_bytes("31: a zero byte", "C 010118\0\n", 10,
                   "refused 2 line 0 byte 0\n", 24);
    struct peer_text t = peer_rewrite(NULL, 0, NULL, 0);
    CHECK("31: nothing at all", t.number == 16 && t.bytes == 24);
}

/* Any first byte alone: the letters of sheets want the rest of the line. */
static void first_bytes_31(void)
{
    for (int i = 0; i < 256; i++) {
        char byte = (char)i;
        bool letter = memchr("KSCEP", i, 5) != NULL;
        rewrites_bytes("31: each first byte", &byte, 1,
                       letter ? "refused 2 line 0 byte 0\n"
                              : "refused 1 line 0 byte 0\n", 24);
    }
}

static void order_letters_31(void)
{
    char file[1000], want[1000];
    static const char letters[] = " KSCEP";
    for (unsigned sheet = K; sheet <= P; sheet++) {
        snprintf(file, sizeof file, "%c 010118\n%s", letters[sheet],
                 PLAIN(sheet));
        size_t at = 0;
        for (const char *p = PLAIN(sheet); *p != 0; p++) {
            if (*p == '\n')
                want[at++] = '\r';
            want[at++] = *p;
        }
        want[at] = 0;
        rewrites("31: each letter", file, want);
    }
}

/* An input of so many bytes that is well formed: C's first line is filled. */
static char *long_input(size_t len)
{
    char *in = malloc(len + 1);
    static const char tail[] = "\n1 1501 000000 0300\n2 705 1 010118\n"
                               "705 1 0 03000000\n3+\n5+\n";
    if (in == NULL)
        exit(2);
    memset(in, 'x', len);
    memcpy(in, "C 010118\nUHL1", 13);
    memcpy(in + len - strlen(tail), tail, strlen(tail));
    in[len] = 0;
    return in;
}

static void lengths_31_32(void)
{
    static const char canonical[] =
        "UHL1" CRLF "1 1501 000000 0300" CRLF "2 705 1 010118" CRLF
        "705 1 0 03000000" CRLF "3 +" CRLF "5 +" CRLF;
    char *in = long_input(8192);
    rewrites("31: 8,192 bytes", in, canonical);
    free(in);
    in = long_input(8193);
    rewrites("31, 32: 8,193 bytes", in, "refused 16 line 0 byte 0\n");
    in[0] = 'X';
    rewrites("31: 1 before 16", in, "refused 1 line 0 byte 0\n");
    in[0] = 'C';
    in[3] = 'x';
    rewrites("31: 2 before 16", in, "refused 2 line 0 byte 0\n");
    in[3] = '1';
    in[9] = 'x';
    rewrites("31: 16 before the file", in, "refused 16 line 0 byte 0\n");
    free(in);
}

/* As many rows as 8,192 bytes can hold: they fit, and what comes out is longer
   than what went in. */
static void dense_32(void)
{
    static char in[8193], out[30000];
    char *i = in, *o = out;
    i += sprintf(i, "C 010118\nUHL1\n1 1501 000000 0300\n");
    o += sprintf(o, "UHL1" CRLF "1 1501 000000 0300" CRLF);
    while (8192 - (i - in) >= 3 + 33) {
        i += sprintf(i, "2 1 010118\n19 19 9 0 00010000\n3+\n");
        o += sprintf(o, "2 9 010118" CRLF "19 19 9 0 00010000" CRLF "3 +" CRLF);
    }
    sprintf(i, "5+\n");
    sprintf(o, "5 +" CRLF);
    CHECK("32: the output is longer than 8 KiB", strlen(out) > 8192);
    rewrites("32: dense groups", in, out);
    i = in + sprintf(in, "C 010118\nUHL1\n1 1501 000000 0300\n2 19 1 010118\n");
    o = out + sprintf(out, "UHL1" CRLF "1 1501 000000 0300" CRLF);
    char *total = o;
    unsigned items = 0;
    o += sprintf(o, "2 19 509 010118" CRLF);
    while (8192 - (i - in) >= 5 + 16) {
        i += sprintf(i, "19 1 0 00010000\n");
        o += sprintf(o, "19 1 0 00010000" CRLF);
        items++;
    }
    sprintf(i, "3+\n5+");
    sprintf(o, "3 +" CRLF "5 +" CRLF);
    char sum[12];
    snprintf(sum, sizeof sum, "%03u", items);
    memcpy(total + 5, sum, 3);
    rewrites("32: dense items", in, out);
    i = in + sprintf(in, "C 010118\nUHL1\n");
    o = out + sprintf(out, "UHL1" CRLF);
    while (8192 - (i - in) >= 19 + 33 + 3) {
        i += sprintf(i, "1 1501 000000 0300\n2 1 010118\n"
                        "19 19 9 0 00010000\n3+\n5+\n");
        o += sprintf(o, "1 1501 000000 0300" CRLF "2 9 010118" CRLF
                        "19 19 9 0 00010000" CRLF "3 +" CRLF "5 +" CRLF);
    }
    rewrites("32: dense account files", in, out);
}

static void refusals_32(void)
{
    rewrites("32: a refusal's line", "K 010118\nUHL1\n",
             "refused 4 line 1 byte 4\n");
    char in[600];
    snprintf(in, sizeof in, "K 010118\n%s",
             FRAME(K, .item = "705 5001 42 03000558 17 led"));
    char want[60];
    snprintf(want, sizeof want, "refused 14 line 4 byte %d\n",
             59 + 19 + 20 + 24);
    rewrites("32: a refusal inside", in, want);
}

void test_rewriting(void)
{
    run();
    order_line_31();
    first_bytes_31();
    order_letters_31();
    lengths_31_32();
    dense_32();
    refusals_32();
}
