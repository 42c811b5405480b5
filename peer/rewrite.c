/* The rewriting program: standard input to standard output. */
#include <stdio.h>

#include "peer.h"

enum {
    INPUT_ROOM = 8192 + 1,  /* one byte more tells that the input is too long */
    OUTPUT_ROOM = 3 * 8192  /* a group's head and end grow most, 14 to 30 */
};

int main(void)
{
    static uint8_t in[INPUT_ROOM], out[OUTPUT_ROOM];
    size_t len = fread(in, 1, sizeof in, stdin);
    if (ferror(stdin))
        return 1;
    struct peer_text text = peer_rewrite(in, len, out, sizeof out);
    if (text.number != 0)
        return 1;
    size_t bytes = (size_t)text.bytes;
    if (fwrite(out, 1, bytes, stdout) != bytes || fflush(stdout) != 0)
        return 1;
    return 0;
}
