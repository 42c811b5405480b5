/* Reading: a file is judged, and if it is right and there is room, rows are
   filled from it; against a register its numbers are then marked. */
#include "batch.h"
#include "fill.h"
#include "judge.h"
#include "peer.h"
#include "register.h"

/* Judges and fills; the register, if there is one, is only looked at. */
static struct peer_answer read_against(const uint8_t *file, size_t len,
                                       uint64_t sheet, uint64_t today,
                                       uint8_t *rows, size_t rows_len,
                                       const struct bytes *reg)
{
    struct peer_answer answer = {0};
    struct judge judge;
    peer_judge(&judge, file, len, sheet, today, reg);
    memset(answer.header.name, ' ', NAME_BYTES);
    if (judge.number != 0) {
        answer.number = judge.number;
        answer.line = judge.fault_line;
        answer.byte = judge.fault_at;
    } else if (rows_len / ROW_BYTES < judge.rows) {
        answer.number = 16;
        answer.needed = judge.rows;
    } else {
        peer_fill(judge.file, judge.sheet, rows);
        answer.rows = judge.rows;
        answer.warnings = judge.warnings;
        answer.header = judge.header;
    }
    return answer;
}

struct peer_answer peer_read(const uint8_t *file, size_t len, uint64_t sheet,
                             uint64_t today, uint8_t *rows, size_t rows_len)
{
    return read_against(file, len, sheet, today, rows, rows_len, NULL);
}

/* Marks the first three digits of each account file's number. */
static void mark_batch(uint8_t *reg, const uint8_t *rows, uint64_t count)
{
    for (uint64_t i = 0; i < count; i++, rows += ROW_BYTES)
        if (row_word(rows, 0) == ROW_FILE)
            mark_number(reg, row_word(rows, FILE_NUMBER) / 1000);
}

struct peer_answer peer_read_registered(const uint8_t *file, size_t len,
                                        uint64_t sheet, uint64_t today,
                                        uint8_t *rows, size_t rows_len,
                                        uint8_t *reg, size_t reg_len)
{
    struct bytes lent = {reg, reg_len};
    struct peer_answer answer =
        read_against(file, len, sheet, today, rows, rows_len, &lent);
    /* What is accepted has a sheet. */
    if (answer.number == 0 && peer_sheet_of(sheet)->interval)
        mark_batch(reg, rows, answer.rows);
    return answer;
}
