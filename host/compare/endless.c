#define _GNU_SOURCE /* for memfd_create */
#include "endless.h"
#include "../call/show.h"
#include "../generate/memory.h"

#include <stdbool.h>
#include <string.h>
#include <sys/mman.h>
#include <unistd.h>

/* A chunk is so many pieces that it ends with a page, whatever a piece's size;
   it has some pages more, so that there are not too many mappings. */
enum { PAGE = 4096, PIECES = PAGE / 2 };
_Static_assert(ENDLESS_RUN % PIECES == 0, "a run is whole chunks");

static int chunk_of(const uint8_t *piece, size_t size)
{
    size_t len = PIECES * size;
    uint8_t *bytes = resized(NULL, len);
    int file = memfd_create("pieces", 0);
    for (size_t i = 0; i < PIECES; i++)
        memcpy(bytes + i * size, piece, size);
    if (file < 0 || write(file, bytes, len) != (ssize_t)len)
        give_up("pieces");
    free(bytes);
    return file;
}

static void map_chunk(uint8_t *at, size_t len, int file, bool own)
{
    int how = own ? MAP_PRIVATE : MAP_SHARED;
    int may = own ? PROT_READ | PROT_WRITE : PROT_READ;
    if (mmap(at, len, may, how | MAP_FIXED, file, 0) == MAP_FAILED)
        give_up("pieces");
}

/* A run of one piece. */
static void map_run(uint8_t *at, const uint8_t *piece, size_t size, bool first)
{
    size_t chunk = PIECES * size;
    int file = chunk_of(piece, size);
    for (size_t i = 0; i < ENDLESS_RUN / PIECES; i++)
        map_chunk(at + i * chunk, chunk, file, first && i == 0);
    close(file);
}

void make_endless(struct endless *e, const uint8_t *pieces, size_t size,
                  unsigned runs)
{
    size_t run = ENDLESS_RUN * size;
    e->len = e->all = runs * run;
    e->bytes = mmap(NULL, e->all, PROT_NONE,
                    MAP_PRIVATE | MAP_ANONYMOUS | MAP_NORESERVE, -1, 0);
    if (e->bytes == MAP_FAILED)
        give_up("pieces");
    for (size_t i = 0; i < runs; i++)
        map_run(e->bytes + i * run, pieces + (i + 1) * size, size, i == 0);
    memcpy(e->bytes, pieces, size);
}

void free_endless(struct endless *e)
{
    munmap(e->bytes, e->all);
}
