/* Writing: a batch is judged, and if it is right and there is room, spelled. */
#include "days.h"
#include "judge_batch.h"
#include "peer.h"
#include "spell_batch.h"

struct peer_written peer_write(const uint8_t *rows, size_t rows_len,
                               const uint8_t *texts, size_t texts_len,
                               uint64_t date, const uint8_t *name,
                               size_t name_len, uint64_t client, uint64_t from,
                               uint64_t to, uint64_t sheet, uint64_t today,
                               uint8_t *out, size_t out_len)
{
    struct batch batch = {
        .rows = {rows, rows_len}, .texts = {texts, texts_len},
        .name = {name, name_len}, .date = date, .client = client,
        .from = from, .to = to, .sheet = peer_sheet_of(sheet),
    };
    if (batch.sheet == NULL)
        return (struct peer_written){1, 0, 0, 0};
    if (!day_is_real(today))
        return (struct peer_written){2, 0, 0, 0};
    batch.today = day_number(today);
    batch.month_ahead = day_number(one_month_ahead(today));
    struct finding found = peer_judge_batch(&batch);
    if (found.number != 0)
        return (struct peer_written){found.number, found.row, found.field, 0};
    if (out_len < found.bytes)
        return (struct peer_written){16, 0, 0, found.bytes};
    peer_spell_batch(&batch, out);
    return (struct peer_written){0, 0, 0, found.bytes};
}
