#include "plain.h"
#include "limits.h"

void put_plain_first(struct text *t, unsigned sheet)
{
    text_words(t, "UHL1");
    if (sheet != C)
        text_words(t, "010118FIRMA               1234567890000999000000000000");
}

void put_plain_file(struct text *t, unsigned sheet, unsigned kind,
                    uint64_t number)
{
    text_words(t, "1 ");
    text_number(t, kind, 4);
    text_byte(t, ' ');
    text_number(t, number, 6);
    text_byte(t, ' ');
    text_words(t, payer_bank(sheet));
}

void put_plain_item(struct text *t, unsigned sheet, uint64_t amount)
{
    text_words(t, "19 ");
    text_number(t, amount, 1);
    text_words(t, sheet == S ? " 0 03000558  " : " 0 03000558");
}
