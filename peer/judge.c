/* The order of lines, the closing lines and the totals. */
#include "judge.h"
#include "days.h"
#include "judge_heads.h"
#include "judge_item.h"
#include "lines.h"

/* `3 +` or `5 +`; the digit and the byte behind it are known. */
static bool judge_close(struct judge *j)
{
    bool tight = j->file.data[j->at + 1] == '+';
    if (tight && !j->sheet->tight_close)
        return refuse(j, 4, j->at + 1);
    j->at += 2;
    if (!tight) {
        if (j->at == j->file.len || j->file.data[j->at] != '+')
            return refuse(j, 4, j->at);
        j->at++;
    }
    return pass_last(j);
}

/* Once the closing line has passed, the sum is known.  A fault is the total's,
   some lines back. */
static bool judge_total(struct judge *j)
{
    if (j->sum > AMOUNT_MOST || (j->sheet->total_binds && j->sum != j->total)) {
        refuse(j, 10, j->total_at);
        j->fault_line = j->total_line;
        return false;
    }
    if (j->sum != j->total)
        j->warnings++;
    return true;
}

static bool judge_line(struct judge *j, unsigned kind)
{
    switch (kind) {
    case LINE_FIRST:
        return peer_judge_first(j);
    case LINE_FILE:
        return peer_judge_file(j);
    case LINE_GROUP:
        return peer_judge_group(j);
    case LINE_ITEM:
        return peer_judge_item(j);
    case LINE_GROUP_END:
        return judge_close(j) && judge_total(j);
    default:
        return judge_close(j);
    }
}

static unsigned due_after(unsigned kind)
{
    switch (kind) {
    case LINE_FIRST:
        return LINE_FILE;
    case LINE_FILE:
        return LINE_GROUP;
    case LINE_GROUP:
        return LINE_ITEM;
    case LINE_ITEM:
        return LINE_ITEM | LINE_GROUP_END;
    case LINE_GROUP_END:
        return LINE_GROUP | LINE_FILE_END;
    default:
        return LINE_FILE | LINE_NONE;
    }
}

/* An early end needs no case of its own: the place is then the file's length
   and the line the one that is missing. */
static void judge_lines(struct judge *j)
{
    unsigned due = LINE_FIRST;
    for (;;) {
        unsigned kind = line_kind(j->file, j->at);
        if ((kind & due) == 0) {
            refuse(j, 3, j->at);
            return;
        }
        if (kind == LINE_NONE || !judge_line(j, kind))
            return;
        due = due_after(kind);
        j->at = next_line(j->file, j->at);
        j->line++;
    }
}

void peer_judge(struct judge *j, const uint8_t *file, size_t len,
                uint64_t sheet, uint64_t today, const struct bytes *reg)
{
    *j = (struct judge){
        .file = {file, len}, .sheet = peer_sheet_of(sheet), .reg = reg,
    };
    memset(j->header.name, ' ', NAME_BYTES);
    if (j->sheet == NULL) {
        j->number = 1;
    } else if (!day_is_real(today)) {
        j->number = 2;
    } else {
        j->today = day_number(today);
        j->month_ahead = day_number(one_month_ahead(today));
        j->line = 1;
        judge_lines(j);
    }
}
