/* Calls of all kinds over a heap that refuses one of its allocations, for each of them, or all from
 * one on. No block may be lost or given back twice, and where nothing is refused the replies are
 * the usual ones. The heap is the program's own, instead of the library's. */
#include "points.h"
#include "workload.h"

#include <limits.h>
#include <stdio.h>
#include <stdlib.h>

struct block {
    bool given;
    void *start;
};

struct block rattle_alloc(size_t size, size_t align);
struct block rattle_realloc(void *start, size_t kept, size_t size, size_t align);
void rattle_dealloc(void *start);

/* How many allocations were asked for, from which on and up to which they are refused, and how many
 * blocks are out. */
static unsigned long asked, first_refused, last_refused, out;

static bool refuses(void)
{
    unsigned long number = asked++;

    return number >= first_refused && number <= last_refused;
}

static struct block block_at(void *start)
{
    static char nowhere;
    struct block block = {start != NULL, start != NULL ? start : &nowhere};

    return block;
}

struct block rattle_alloc(size_t size, size_t align)
{
    struct block block = block_at(refuses() ? NULL : malloc(size == 0 ? align : size));

    out += block.given;
    return block;
}

struct block rattle_realloc(void *start, size_t kept, size_t size, size_t align)
{
    (void)kept;
    return block_at(refuses() ? NULL : realloc(start, size == 0 ? align : size));
}

void rattle_dealloc(void *start)
{
    out--;
    free(start);
}

/* The calls with the allocations from one to another refused. */
static uint64_t run(unsigned long first, unsigned long last)
{
    uint64_t digest;

    asked = 0;
    first_refused = first;
    last_refused = last;
    digest = run_workload();
    HOLDS(out == 0);
    return digest;
}

int main(void)
{
    uint64_t wanted = run(ULONG_MAX, ULONG_MAX);
    unsigned long count = asked, other = 0;

    for (unsigned long at = 0; at < count; at++) {
        other += run(at, at) != wanted;
        run(at, ULONG_MAX);
    }
    HOLDS(other > count / 3);
    HOLDS(run(count, ULONG_MAX) == wanted);
    printf("refusals: %lu allocations, %lu of them refused alone change a reply\n", count, other);
    return points_end("refusals");
}
