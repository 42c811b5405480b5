#include "fuzz_input.h"
#include "../generate/days.h"
#include "../generate/limits.h"
#include "../generate/words.h"

#include <string.h>

enum {
    HEAD = 5,
    WRITE_HEAD = 17,
    REGISTER_HEAD = 6,
    NAME = ABO_NAME_BYTES,
    ENOUGH_ROOM = 128,
    NO_SHEET = LAST_SHEET + 1,
    MOST_OF_REGISTER = 255
};

/* The first byte's modulus, the bit of its quotient that makes an explanation
   the finding of a line, and the one that makes a batch a statement, or an
   explanation a list; the bit that lends a register, and the one that chooses
   the second of two calls then. */
enum {
    CHOICES = 3,
    SECOND_BIT = 8,
    REGISTER_BIT = 16,
    LINE_BIT = 32,
    STATEMENT_BIT = 64
};

static uint64_t take_day(const uint8_t *data)
{
    uint64_t place = number_at(data, 2);
    return place < DAYS ? day_at((size_t)place) : place;
}

static void put_day(struct text *out, uint64_t day)
{
    size_t place = 0;
    while (place < DAYS && day_at(place) != day)
        place++;
    text_low_bytes(out, place, 2);
}

/* What writing has behind the first bytes. */
static bool take_batch(struct fuzz_input *in, const uint8_t *data, size_t len)
{
    struct call *c = &in->call;
    size_t head = WRITE_HEAD + NAME;
    if (len < head)
        return false;
    size_t texts = data[HEAD], left = len - head;
    if (texts > left)
        texts = left;
    c->date = take_day(data + 6);
    c->from = number_at(data + 8, 2);
    c->to = number_at(data + 10, 2);
    c->client = number_at(data + 12, 5);
    c->name = (struct slice){data + WRITE_HEAD, NAME};
    c->texts = (struct slice){data + head, in->runs_on ? left : texts};
    c->file = (struct slice){data + head + texts, left - texts};
    return true;
}

static void take_line(struct fuzz_input *in, const uint8_t *data)
{
    uint64_t number = number_at(data + 2, 2);
    in->call.which = FINDS;
    in->call.line = data[4] == 0 ? number : UINT64_MAX - number;
    in->room = 0;
}

static enum which registered(enum which which, bool second)
{
    if (which == READS)
        return READS_REGISTERED;
    if (which == WRITES)
        return second ? GIVES_BACK : STARTS;
    return second ? ASKS_FREE : ASKS_LOWEST;
}

/* A call may change the register, so it lies in a copy. */
static bool take_register(struct fuzz_input *in, const uint8_t *data,
                          size_t len, bool second)
{
    static uint8_t copy[MOST_OF_REGISTER];
    struct call *c = &in->call;
    if (len < REGISTER_HEAD)
        return false;
    size_t left = len - REGISTER_HEAD, bytes = data[5] < left ? data[5] : left;
    memcpy(copy, data + REGISTER_HEAD, bytes);
    c->which = registered(c->which, second);
    c->reg = (struct held){copy, bytes};
    c->file = (struct slice){data + REGISTER_HEAD + bytes, left - bytes};
    c->date = c->today;
    c->given = number_at(data + 2, 2);
    if (of_register(c->which)) {
        c->file.len = 0;
        in->room = 0;
    }
    return true;
}

bool decode_input(struct fuzz_input *in, const uint8_t *data, size_t len)
{
    if (len < HEAD)
        return false;
    uint8_t bits = data[0] / CHOICES;
    *in = (struct fuzz_input){
        .call = {.which = (enum which)(data[0] % CHOICES),
                 .file = {data + HEAD, len - HEAD},
                 .sheet = data[1] % (NO_SHEET + 1),
                 .today = take_day(data + 2)},
        .at_back = bits & 1,
        .runs_on = bits & 2,
        .room = data[4],
    };
    if (bits & REGISTER_BIT && !(bits & STATEMENT_BIT))
        return take_register(in, data, len, bits & SECOND_BIT);
    if (in->call.which == EXPLAINS && bits & STATEMENT_BIT)
        in->call.which = LISTS;
    else if (in->call.which == EXPLAINS && bits & LINE_BIT)
        take_line(in, data);
    else if (in->call.which != EXPLAINS && bits & STATEMENT_BIT) {
        in->call.which =
            in->call.which == READS ? READS_STATEMENT : WRITES_STATEMENT;
        return true;
    }
    return in->call.which != WRITES || take_batch(in, data, len);
}

size_t room_of_input(const struct fuzz_input *in, uint64_t wanted)
{
    size_t room = (size_t)wanted + in->room;
    return in->room == 0 || room < ENOUGH_ROOM ? 0 : room - ENOUGH_ROOM;
}

static void put_head(struct text *out, enum which which, uint64_t sheet,
                     uint64_t today, struct dice *d)
{
    static const uint8_t rooms[] = {0, ENOUGH_ROOM - 1, ENOUGH_ROOM,
                                    ENOUGH_ROOM, ENOUGH_ROOM, 255};
    text_clear(out);
    text_byte(out, (uint8_t)(which + CHOICES * below(d, 4)));
    text_byte(out, sheet < NO_SHEET ? (uint8_t)sheet : NO_SHEET);
    put_day(out, today);
    text_byte(out, PICK(d, rooms));
}

void put_file_input(struct text *out, const struct made *made, enum which which,
                    struct dice *d)
{
    put_head(out, which == LISTS ? EXPLAINS : which, made->sheet, made->today,
             d);
    if (which == LISTS)
        out->data[0] = (uint8_t)(out->data[0] + CHOICES * STATEMENT_BIT);
    text_bytes(out, made->file.data, made->file.len);
}

void put_line_input(struct text *out, const struct made *made, struct dice *d)
{
    text_clear(out);
    text_byte(out, (uint8_t)(EXPLAINS + CHOICES * (LINE_BIT + below(d, 2))));
    text_byte(out, (uint8_t)made->sheet);
    text_low_bytes(out, below(d, 16), 2);
    text_byte(out, one_in(d, 8));
    text_bytes(out, made->file.data, made->file.len);
}

void put_draft_input(struct text *out, const struct draft *draft,
                     struct dice *d)
{
    size_t texts = draft->texts.len < 255 ? draft->texts.len : 255;
    put_head(out, WRITES, draft->sheet, draft->today, d);
    text_byte(out, (uint8_t)texts);
    put_day(out, draft->date);
    text_low_bytes(out, draft->from, 2);
    text_low_bytes(out, draft->to, 2);
    text_low_bytes(out, draft->client, 5);
    text_bytes(out, draft->name, NAME);
    text_bytes(out, draft->texts.data, texts);
    text_bytes(out, draft->rows.data, draft->rows.len);
}

/* The call that stands for it among the first three. */
static enum which stand_in(enum which which)
{
    return which == READS_REGISTERED ? READS
           : asks_register(which)    ? EXPLAINS
                                     : WRITES;
}

void put_register_input(struct text *out, const struct call *c, struct dice *d)
{
    bool second = c->which == ASKS_FREE || c->which == GIVES_BACK;
    size_t bytes =
        c->reg.len < MOST_OF_REGISTER ? c->reg.len : MOST_OF_REGISTER;
    put_head(out, stand_in(c->which), c->sheet,
             c->which == STARTS ? c->date : c->today, d);
    out->data[0] = (uint8_t)(out->data[0] +
                             CHOICES * (REGISTER_BIT + second * SECOND_BIT));
    if (c->which == GIVES_BACK)
        for (size_t i = 0; i < 2; i++)
            out->data[2 + i] = (uint8_t)(c->given >> 8 * i);
    text_byte(out, (uint8_t)bytes);
    text_bytes(out, c->reg.bytes, bytes);
    text_bytes(out, c->file.bytes, c->file.len);
}

void put_statement_input(struct text *out, enum which which,
                         const struct text *bytes, struct dice *d)
{
    put_head(out, which == READS_STATEMENT ? READS : WRITES, 0, 0, d);
    out->data[0] = (uint8_t)(out->data[0] % CHOICES +
                             CHOICES * (STATEMENT_BIT + below(d, 4)));
    text_bytes(out, bytes->data, bytes->len);
}
