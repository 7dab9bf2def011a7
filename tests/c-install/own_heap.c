/* A heap of the program's own, instead of the library's: it never gives a block again. */
#include <stdbool.h>
#include <stddef.h>
#include <string.h>

struct block {
    bool given;
    void *start;
};

struct block rattle_alloc(size_t size, size_t align);
struct block rattle_realloc(void *start, size_t kept, size_t size, size_t align);
void rattle_dealloc(void *start);

static _Alignas(16) unsigned char room[1 << 20];
static size_t used;

struct block rattle_alloc(size_t size, size_t align)
{
    struct block block = {false, room};

    (void)align;
    size = (size + 15) & ~(size_t)15;
    if (size > sizeof room - used)
        return block;
    block.given = true;
    block.start = room + used;
    used += size;
    return block;
}

struct block rattle_realloc(void *start, size_t kept, size_t size, size_t align)
{
    struct block block = rattle_alloc(size, align);

    if (block.given)
        memcpy(block.start, start, kept < size ? kept : size);
    return block;
}

void rattle_dealloc(void *start)
{
    (void)start;
}
