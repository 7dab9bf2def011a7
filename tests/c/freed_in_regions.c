/* Frees in full regions: drawn allocations of pages and blocks of the pool until a region has no
 * room left, and then all of them are freed in drawn order: each FreePages and FreePool returns
 * SUCCESS, and the map is as at first. Each point that does not hold is printed on standard error,
 * and then the status is 1. */
#include "drawn_load.h"
#include "points.h"

#include <rafkudin_region.h>

#include <stdlib.h>

/* How many allocations a full region refuses in a row. */
#define REFUSALS 40U

static void fill(struct load *load)
{
    for (unsigned refused = 0; refused < REFUSALS;) {
        uint64_t status = load_allocate(load);

        if (status == RAFKUDIN_SUCCESS)
            refused = 0;
        refused += status == RAFKUDIN_OUT_OF_RESOURCES;
    }
}

static void try_region(size_t room, uint64_t granule, uint64_t seed)
{
    static struct map first, last;
    static struct load load;
    void *region = malloc(room);
    struct rafkudin *core = NULL;

    if (region == NULL ||
        RafkudinMakeIn(region, room, (const uint8_t *)load_machine, sizeof load_machine,
                       sizeof load_machine[0], granule, NULL, 0, &core) != RAFKUDIN_SUCCESS)
        abort();
    load_begin(&load, core, seed);
    map_take(&first, core);
    for (int round = 0; round < 4; round++) {
        fill(&load);
        HOLDS(load.count > room / 4096);
        while (load.count > 0)
            load_free(&load);
        map_take(&last, core);
        HOLDS(map_equals(&first, &last));
    }
    RafkudinFree(core);
    free(region);
}

int main(void)
{
    static const size_t rooms[] = {20000, 40000, 100000, 300000, 1000000};

    for (size_t at = 0; at < COUNT(rooms); at++)
        for (uint64_t seed = 1; seed <= 6; seed++)
            try_region(rooms[at], seed < 4 ? 1 : 16, seed);
    return points_end("freed_in_regions");
}
