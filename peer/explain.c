/* Answers in words, and the rewriting program on slices. */
#include "days.h"
#include "digits.h"
#include "judge.h"
#include "peer.h"

enum {
    INPUT_BYTES = 8192,
    /* The cheapest row is a group: `2 1 010118` and `3+` with an end each are
       14 bytes, while an item takes 16 and an account file 22. */
    INPUT_ROWS = INPUT_BYTES / 14,
    LINE_ROOM = 80
};

static uint8_t *put_words(uint8_t *out, const char *words)
{
    size_t len = strlen(words);
    memcpy(out, words, len);
    return out + len;
}

/* Hands over a line with its LF if there is room for it. */
static struct peer_text give_line(uint8_t line[LINE_ROOM], uint8_t *end,
                                  uint8_t *out, size_t out_len)
{
    *end++ = '\n';
    size_t len = (size_t)(end - line);
    if (out_len < len)
        return (struct peer_text){16, len};
    memcpy(out, line, len);
    return (struct peer_text){0, len};
}

static struct peer_text give_refusal(uint64_t number, uint64_t line,
                                     uint64_t byte, uint8_t *out,
                                     size_t out_len)
{
    uint8_t room[LINE_ROOM], *end = put_words(room, "refused ");
    end = put_words(put_number(end, number), " line ");
    end = put_words(put_number(end, line), " byte ");
    return give_line(room, put_number(end, byte), out, out_len);
}

struct peer_text peer_explain(const uint8_t *file, size_t len, uint64_t sheet,
                              uint64_t today, uint8_t *out, size_t out_len)
{
    struct judge j;
    peer_judge(&j, file, len, sheet, today, NULL);
    if (j.number != 0)
        return give_refusal(j.number, j.fault_line, j.fault_at, out, out_len);
    uint8_t room[LINE_ROOM], *end = put_words(room, "accepted rows ");
    end = put_words(put_number(end, j.rows), " warnings ");
    return give_line(room, put_number(end, j.warnings), out, out_len);
}

/* The line in front of the file: 0, or 1 or 2.  With 0 the file starts at the
   place given back. */
static uint64_t take_order(struct bytes in, uint64_t *sheet, uint64_t *today,
                           size_t *file_at)
{
    static const char letters[] = "KSCEP";
    const char *letter =
        in.len > 0 ? memchr(letters, in.data[0], sizeof letters - 1) : NULL;
    if (letter == NULL)
        return 1;
    *sheet = (uint64_t)(letter - letters) + 1;
    if (in.len < 2 || in.data[1] != ' ')
        return 2;
    struct run day = digit_run(in, 2);
    if (day.end != 8 || !line_ends(in, 8))
        return 2;
    *today = date_of_short(day.value);
    *file_at = next_line(in, 8);
    return day_is_real(*today) ? 0 : 2;
}

struct peer_text peer_rewrite(const uint8_t *in, size_t in_len, uint8_t *out,
                              size_t out_len)
{
    uint8_t rows[INPUT_ROWS * ROW_BYTES];
    uint64_t sheet = 0, today = 0;
    size_t at = 0;
    uint64_t fault =
        take_order((struct bytes){in, in_len}, &sheet, &today, &at);
    if (fault == 0 && in_len > INPUT_BYTES)
        fault = 16;
    if (fault != 0)
        return give_refusal(fault, 0, 0, out, out_len);

    const uint8_t *file = in + at;
    size_t len = in_len - at;
    struct peer_answer read =
        peer_read(file, len, sheet, today, rows, sizeof rows);
    if (read.number != 0)
        return give_refusal(read.number, read.line, read.byte, out, out_len);

    const struct peer_header *h = &read.header;
    struct peer_written written = peer_write(
        rows, (size_t)read.rows * ROW_BYTES, file, len, h->date, h->name,
        NAME_BYTES, h->client, h->from, h->to, sheet, today, out, out_len);
    /* What was read can be written, so only room may be wanting. */
    return (struct peer_text){written.number, written.bytes};
}
