/* A file's header: the fields of its first line (document 01, Lines). */
#ifndef PEER_HEADER_H
#define PEER_HEADER_H

#include <stdint.h>

struct peer_header {
    uint64_t date, client, from, to;
    uint8_t name[20];
};

#endif
