/* Any of the twelve calls and its answer as values, whoever is asked. */
#ifndef HOST_CALL_H
#define HOST_CALL_H

#include <abo.h>
#include <stdbool.h>

enum which {
    READS, WRITES, EXPLAINS, FINDS, READS_STATEMENT, WRITES_STATEMENT, LISTS,
    READS_REGISTERED, STARTS, ASKS_LOWEST, ASKS_FREE, GIVES_BACK,
    CALLS
};
extern const char *const call_names[CALLS];

struct slice {
    const uint8_t *bytes;
    size_t len;
};

/* Bytes that hold something and that a call may change. */
struct held {
    uint8_t *bytes;
    size_t len;
};

/* The arguments but for the room.  Texts, name and the four numbers are
   writing's, and its rows lie where the others have the file, as those of
   writing a statement do.  The line is that to be found, which takes no sheet,
   day or room; statements take no sheet and day.  The register is lent to be
   read against, and alone to the calls behind that: a day's start takes the
   date, and a number is given back. */
struct call {
    enum which which;
    struct slice file, texts, name;
    uint64_t date, client, from, to;
    uint64_t sheet, today;
    uint64_t line;
    struct held reg;
    uint64_t given;
};

/* The header's words are the last four. */
enum { HEADER_WORDS = 5, OUTCOME_WORDS = 9, NUMBERS = ABO_BAD_BALANCE + 1 };

/* The answer of any call: reading's line, byte, rows, warnings, needed and the
   header's four numbers; writing's row, field and bytes, of statements too;
   explaining's bytes; of a line its place and length, and as the number 1 if it
   was found, else 0; of reading a statement line, byte, rows and needed; of a
   list of findings refused, count, needed and sheets; of a register the
   value. */
struct outcome {
    uint64_t number, words[OUTCOME_WORDS];
    uint8_t name[ABO_NAME_BYTES];
    uint64_t written, needed; /* bytes, worked out from the words */
};

/* Makes a call, with room for so many bytes. */
typedef struct outcome caller(const struct call *c, uint8_t *out, size_t room);

struct outcome outcome_of_answer(const struct abo_answer *a);
struct outcome outcome_of_written(const struct abo_written *w);
struct outcome outcome_of_text(const struct abo_text *t);
struct outcome outcome_of_found(const struct abo_found *f);
struct outcome outcome_of_statement(const struct abo_statement_answer *a);
struct outcome outcome_of_list(const struct abo_list *l);
struct outcome outcome_of_register(const struct abo_register_answer *a);

/* Does the call take rows in the place of a file; is it about a statement? */
static inline bool takes_rows(enum which which)
{
    return which == WRITES || which == WRITES_STATEMENT;
}

static inline bool of_statement(enum which which)
{
    return which == READS_STATEMENT || which == WRITES_STATEMENT;
}

/* Is a register lent; and nothing but a register, so that there is no room? */
static inline bool takes_register(enum which which)
{
    return which >= READS_REGISTERED;
}

static inline bool of_register(enum which which)
{
    return which > READS_REGISTERED;
}

/* Is the register lent to be read only? */
static inline bool asks_register(enum which which)
{
    return which == ASKS_LOWEST || which == ASKS_FREE;
}

/* How many of the register's bytes the call may have written: all of the
   register, or none. */
size_t register_written(const struct call *c, const struct outcome *o);

bool same_outcome(const struct outcome *a, const struct outcome *b);
bool same_header(const struct abo_header *a, const struct abo_header *b);

/* Gives a call of writing the header's numbers that reading gave. */
void give_header(struct call *c, const struct outcome *read);

void show_call(const struct call *c, size_t room, bool at_null);
void show_outcome(const char *who, const struct outcome *o);

#endif
