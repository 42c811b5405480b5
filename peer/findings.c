/* The findings of a file as a list: one of a refused file, each warning of an
   accepted one. */
#include "judge.h"
#include "peer.h"
#include "reason.h"
#include "warnings.h"

/* The place behind the findings listed so far moves on. */
static void list_finding(void *to, const struct peer_finding *f)
{
    uint8_t **at = to;
    store_finding(*at, f);
    *at += FINDING_BYTES;
}

static void list_findings(const struct judge *j, uint64_t today, uint8_t *out)
{
    if (j->number != 0) {
        struct peer_finding f;
        peer_reason(j, today, &f);
        store_finding(out, &f);
    } else {
        peer_warnings(j->file, j->sheet, today, list_finding, &out);
    }
}

/* A bit for each sheet that accepts the file that day. */
static uint64_t accepting(const uint8_t *file, size_t len, uint64_t today)
{
    struct judge j;
    uint64_t sheets = 0;
    for (uint64_t sheet = 1; sheet <= SHEETS; sheet++) {
        peer_judge(&j, file, len, sheet, today, NULL);
        if (j.number == 0)
            sheets |= UINT64_C(1) << (sheet - 1);
    }
    return sheets;
}

struct peer_list peer_findings(const uint8_t *file, size_t len, uint64_t sheet,
                               uint64_t today, uint8_t *out, size_t out_len)
{
    struct judge j;
    peer_judge(&j, file, len, sheet, today, NULL);
    if (j.number == 1 || j.number == 2)
        return (struct peer_list){.number = j.number};
    uint64_t count = j.number != 0 ? 1 : j.warnings;
    if (out_len / FINDING_BYTES < count)
        return (struct peer_list){.number = 16, .needed = count};
    list_findings(&j, today, out);
    return (struct peer_list){
        .refused = j.number != 0, .count = count,
        .sheets = accepting(file, len, today),
    };
}
