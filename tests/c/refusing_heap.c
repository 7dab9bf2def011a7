/* What refusing_heap.h declares. */
#include "refusing_heap.h"

#include <stdint.h>
#include <stdlib.h>

struct block {
    bool given;
    void *start;
};

struct block rattle_alloc(size_t size, size_t align);
struct block rattle_realloc(void *start, size_t kept, size_t size, size_t align);
void rattle_dealloc(void *start);

/* Before each block is its size. */
#define HEADER 16

bool was_refused;
size_t in_use;
size_t most_bytes = SIZE_MAX;

/* The allocations since `refuse`, and those that are refused. */
static unsigned long asked, first_refused, last_refused;

void refuse(unsigned long first, unsigned long last)
{
    asked = 0;
    was_refused = false;
    first_refused = first;
    last_refused = last;
}

void refuse_none(void)
{
    first_refused = last_refused = 0;
}

static bool refuses(size_t more)
{
    bool refused;

    asked++;
    refused = (asked >= first_refused && asked <= last_refused) || in_use + more > most_bytes;
    was_refused = was_refused || refused;
    return refused;
}

static size_t *size_before(void *start)
{
    return (size_t *)((uint8_t *)start - HEADER);
}

static struct block block_at(uint8_t *whole, size_t size)
{
    static char nowhere;
    struct block block = {whole != NULL, whole != NULL ? (void *)(whole + HEADER) : &nowhere};

    if (whole != NULL) {
        *(size_t *)whole = size;
        in_use += size;
    }
    return block;
}

struct block rattle_alloc(size_t size, size_t align)
{
    (void)align;
    return block_at(refuses(size) ? NULL : malloc(HEADER + size), size);
}

struct block rattle_realloc(void *start, size_t kept, size_t size, size_t align)
{
    size_t before = *size_before(start);
    uint8_t *whole;

    (void)kept;
    (void)align;
    whole = refuses(size) ? NULL : realloc(size_before(start), HEADER + size);
    if (whole != NULL)
        in_use -= before;
    return block_at(whole, size);
}

void rattle_dealloc(void *start)
{
    in_use -= *size_before(start);
    free(size_before(start));
}
