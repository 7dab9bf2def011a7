/* What memory interfaces take: a core gets handles with one interface each, of 64 protocols, over a
 * heap that counts the bytes of its blocks. It prints how many bytes and blocks there are an
 * interface, and wants no more than 250 bytes of it at 4,096. The heap is the program's own, in the
 * place of the library's. */
#include "points.h"

#include <rafkudin.h>

#include <inttypes.h>
#include <stdio.h>
#include <stdlib.h>

#define PROTOCOLS 64
#define MAX_BYTES 250

struct block {
    bool given;
    void *start;
};

struct block rattle_alloc(size_t size, size_t align);
struct block rattle_realloc(void *start, size_t kept, size_t size, size_t align);
void rattle_dealloc(void *start);

/* What lies before each block: how many bytes it has. */
union header {
    size_t size;
    _Alignas(16) unsigned char bytes[16];
};

static size_t bytes_out, blocks_out;

/* The block behind a header, if there is one. */
static struct block block_behind(union header *header, size_t size)
{
    static char nowhere;
    struct block block = {header != NULL, &nowhere};

    if (header != NULL) {
        header->size = size;
        bytes_out += size;
        block.start = header + 1;
    }
    return block;
}

struct block rattle_alloc(size_t size, size_t align)
{
    (void)align;
    blocks_out++;
    return block_behind(malloc(sizeof(union header) + size), size);
}

struct block rattle_realloc(void *start, size_t kept, size_t size, size_t align)
{
    union header *header = (union header *)start - 1;
    size_t before = header->size;

    (void)kept;
    (void)align;
    header = realloc(header, sizeof *header + size);
    if (header != NULL)
        bytes_out -= before;
    return block_behind(header, size);
}

void rattle_dealloc(void *start)
{
    union header *header = (union header *)start - 1;

    bytes_out -= header->size;
    blocks_out--;
    free(header);
}

/* Installs an interface on a new handle. */
static void install(struct rafkudin *core, size_t number)
{
    struct rafkudin_guid protocol = {{(uint8_t)(number % PROTOCOLS), 0x66}};
    uint64_t handle = 0;

    HOLDS(RafkudinInstallProtocolInterface(core, &handle, &protocol, 0, number) ==
          RAFKUDIN_SUCCESS);
}

/* Prints what the interfaces of that many handles take, and returns how many bytes each does. */
static double measure(size_t handles)
{
    static const uint64_t record[5] = {RAFKUDIN_CONVENTIONAL, 0x100000, 0, 1024, 0xf};
    struct rafkudin *core = NULL;
    size_t bytes, blocks;

    HOLDS(RafkudinMake((const uint8_t *)record, sizeof record, sizeof record, 1, NULL, 0, &core) ==
          RAFKUDIN_SUCCESS);
    bytes = bytes_out;
    blocks = blocks_out;
    for (size_t number = 0; number < handles; number++)
        install(core, number);
    bytes = bytes_out - bytes;
    blocks = blocks_out - blocks;
    printf("interface_memory: %zu handles, %.1f bytes and %.2f blocks an interface\n", handles,
           (double)bytes / (double)handles, (double)blocks / (double)handles);
    RafkudinFree(core);
    HOLDS(bytes_out == 0 && blocks_out == 0);
    return (double)bytes / (double)handles;
}

int main(void)
{
    measure(64);
    measure(1024);
    HOLDS(measure(4096) <= MAX_BYTES);
    return points_end("interface_memory");
}
