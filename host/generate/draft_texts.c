#include "draft_texts.h"

static void put_run(struct pool *pool, struct dice *d)
{
    size_t len = between(d, 30, 60);
    pool->runs[pool->run_count] = pool->texts->len;
    pool->run_lens[pool->run_count++] = len;
    for (size_t i = 0; i < len; i++) {
        static const uint8_t edges[] = {' ', '!', '{', '}', '$', 128, 255,
                                        ':', 'N', 'P', 'A', '0'};
        text_byte(pool->texts, one_in(d, 3) ? PICK(d, edges)
                                            : (uint8_t)between(d, 'a', 'z'));
    }
}

static void put_mark(struct pool *pool, struct dice *d)
{
    static const char *const marks[] = {" NP:", " NP:", " NP:", "|",  "|",
                                        "\001", "\037", "\177", "\n", "\r",
                                        " NP",  "NP:",  "\200", "\t",
                                        "#",    "#",    "~",    "~"};
    pool->marks[pool->mark_count++] = pool->texts->len;
    text_words(pool->texts, PICK(d, marks));
}

void draw_pool(struct pool *pool, struct text *texts, struct dice *d)
{
    size_t pieces = one_in(d, 20) ? 0 : between(d, 2, MOST_PIECES);
    *pool = (struct pool){.texts = texts};
    text_clear(texts);
    for (size_t i = 0; i < pieces; i++)
        if (i == 0 || one_in(d, 2))
            put_run(pool, d);
        else
            put_mark(pool, d);
}

struct span draw_span(const struct pool *pool, struct dice *d)
{
    static const uint64_t lengths[] = {0, 0, 1, 2, 3, 10, 29, 30};
    struct span s = {0, 0};
    if (pool->run_count == 0)
        return s;
    size_t run = below(d, pool->run_count), len = pool->run_lens[run];
    s.length = one_in(d, 4) ? (len < 35 ? len : 35) : PICK(d, lengths);
    /* An empty one may lie anywhere, behind the last byte too. */
    s.place = s.length == 0 ? below(d, pool->texts->len + 1)
                            : pool->runs[run] + below(d, len - s.length + 1);
    return s;
}

/* Over a mark or just beside it. */
static struct span span_at_mark(const struct pool *pool, struct dice *d)
{
    size_t mark = pool->marks[below(d, pool->mark_count)];
    size_t before = below(d, 32);
    struct span s = {before < mark ? mark - before : 0, 0};
    s.length = mark - s.place + below(d, 6);
    if (s.length > 35 && !one_in(d, 4))
        s.length = 35;
    return s;
}

static struct span span_at_end(const struct pool *pool, struct dice *d)
{
    size_t len = pool->texts->len, back = below(d, 37);
    struct span s = {back < len ? len - back : 0, 0};
    s.length = len - s.place + below(d, 3);
    if (s.length > 0 && one_in(d, 3))
        s.length--;
    return s;
}

struct span draw_wrong_span(const struct pool *pool, struct dice *d)
{
    static const struct span far[] = {
        {UINT64_MAX, 0}, {UINT64_MAX, 1}, {UINT64_MAX, 2}, {UINT64_MAX, 36},
        {UINT64_MAX - 34, 35}, {0, UINT64_MAX}, {1, UINT64_MAX},
        {UINT64_C(1) << 63, UINT64_C(1) << 63}, {UINT64_C(1) << 32, 0},
        {UINT64_C(1) << 32, 3}, {0, UINT64_C(1) << 32},
        {UINT64_MAX, UINT64_MAX}, {0, 35}, {0, 36}, {0, 37}, {0, 255}, {0, 256},
    };
    struct span s;
    switch (below(d, 7)) {
    case 0:
        return PICK(d, far);
    case 1:
    case 2:
    case 3:
        if (pool->mark_count > 0)
            return span_at_mark(pool, d);
        return span_at_end(pool, d);
    case 4:
        return span_at_end(pool, d);
    case 5: /* 36 of a run, which no text may have */
        s = draw_span(pool, d);
        s.length = between(d, 35, 37);
        return s;
    default: /* the high half of a place must not be lost */
        s = draw_span(pool, d);
        s.place += one_in(d, 2) ? UINT64_C(1) << 32 : below(d, 40);
        return s;
    }
}
