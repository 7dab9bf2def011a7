/* Compares places that are found with no core, on the memory of a machine file, with those that
 * AllocatePages answers on a core of it:
 *
 *     places MACHINE
 *
 * Pages of all types are asked for below limits of all heights. The first core that is asked is
 * fresh; then pages are placed one after another, and each time RafkudinPlace is asked on the map
 * that the core gives. RafkudinPlaceIn is asked the same each time, in a region as large as its
 * header says is enough. */
#include "fault.h"
#include "machine.h"
#include "points.h"

#include "../../include/rafkudin_place.h"

#include <inttypes.h>
#include <stdlib.h>

#define MAX_MAP_SIZE 65536

/* The granule of the machine in pages. */
static uint64_t granule;

/* RafkudinPlaceIn by a region of its own. */
static uint64_t place_alone(const uint8_t *map, size_t size, size_t step, uint32_t type,
                            uint64_t pages, uint64_t limit, uint64_t *address)
{
    size_t room = RAFKUDIN_PLACE_ROOM(size);
    void *region = malloc(room);
    uint64_t status;

    if (region == NULL)
        fail("out of memory");
    status = RafkudinPlaceIn(region, room, map, size, step, granule, type, pages, limit, address);
    free(region);
    return status;
}

/* What all answer for one request on one map. */
static void try_place(const uint8_t *map, size_t size, size_t step, struct rafkudin *core,
                      uint32_t type, uint64_t pages, uint64_t limit)
{
    uint64_t found = 1, same = 1, placed = limit, status, other;

    status = RafkudinPlace(map, size, step, granule, type, pages, limit, &found);
    other = RafkudinAllocatePages(core, RAFKUDIN_MAX_ADDRESS, type, pages, &placed);
    HOLDS(status == other);
    HOLDS(status == RAFKUDIN_SUCCESS ? found == placed : found == 1);
    HOLDS(place_alone(map, size, step, type, pages, limit, &same) == status && same == found);
    if (other == RAFKUDIN_SUCCESS)
        HOLDS(RafkudinFreePages(core, placed, pages) == RAFKUDIN_SUCCESS);
}

/* Requests of all kinds on the machine's first map. */
static void try_requests(const struct machine *machine)
{
    struct rafkudin *core = machine_core(machine);

    for (uint32_t type = 0; type < 17; type++)
        for (unsigned shift = 12; shift < 64; shift += 3)
            for (uint64_t pages = 0; pages < 600; pages = 5 * pages + 1)
                try_place(machine->records, machine->size, RAFKUDIN_DESCRIPTOR_SIZE, core, type,
                          pages, UINT64_MAX >> (63 - shift));
    RafkudinFree(core);
}

/* Places pages one after another, each where RafkudinPlace finds a place on the map of then. */
static void try_chain(const struct machine *machine)
{
    static uint8_t map[MAX_MAP_SIZE];
    struct rafkudin *core = machine_core(machine);

    for (uint32_t at = 0; at < 60; at++) {
        uint64_t size = sizeof map, key, found = 0, same = 0, placed = 0, status;
        uint32_t type = 1 + at % 6;

        HOLDS(RafkudinGetMemoryMap(core, &size, map, &key, NULL, NULL) == RAFKUDIN_SUCCESS);
        status = RafkudinPlace(map, size, RAFKUDIN_DESCRIPTOR_SIZE, granule, type, 1 + 7 * at,
                               UINT64_MAX, &found);
        HOLDS(place_alone(map, size, RAFKUDIN_DESCRIPTOR_SIZE, type, 1 + 7 * at, UINT64_MAX,
                          &same) == status &&
              same == found);
        HOLDS(status == RafkudinAllocatePages(core, RAFKUDIN_ANY_PAGES, type, 1 + 7 * at, &placed));
        HOLDS(found == placed);
    }
    RafkudinFree(core);
}

int main(int count, char **words)
{
    struct machine machine;

    fault_program = "places";
    if (count != 2)
        fail("usage: places MACHINE");
    machine = machine_open(words[1]);
    granule = machine.granule;
    try_requests(&machine);
    try_chain(&machine);
    machine_free(&machine);
    return points_end("places");
}
