/* What drawn_load.h declares. */
#include "drawn_load.h"

#include "draws.h"
#include "points.h"

#include <stdlib.h>
#include <string.h>

#define PAGE 4096U

const uint64_t load_machine[7][6] = {{7, 0x1000, 0, 159, 0xf, 0},
                                     {7, 0x100000, 0, 4096, 0xf, 0},
                                     {6, 0x1100000, 0, 16, 0x800000000000000f, 0},
                                     {7, 0x1110000, 0, 8192, 0xf, 0},
                                     {7, 0x3110000, 0, 8192, 0x7, 0},
                                     {0, 0x5110000, 0, 32, 0xf, 0},
                                     {7, 0x10000000, 0, 0x100000, 0xf, 0}};

void load_begin(struct load *load, struct rafkudin *core, uint64_t seed)
{
    memset(load, 0, sizeof *load);
    load->core = core;
    load->seed = seed;
    load->types = seed % 2 == 0 ? 2 : 11;
}

/* An address in one of the first 8,192 pages of free memory: half of them begin a granule of 16
 * pages. */
static uint64_t drawn_address(uint64_t *seed)
{
    static const size_t places[5] = {0, 1, 3, 4, 6};
    const uint64_t *record = load_machine[places[draw_below(seed, 5)]];
    uint64_t address = record[1] + PAGE * draw_below(seed, record[3] < 8192 ? record[3] : 8192);

    return one_of(seed, 2) ? address : address / (16 * PAGE) * (16 * PAGE);
}

static uint64_t drawn_pages(struct load *load, uint32_t type, struct held *made)
{
    uint32_t kind = (uint32_t)draw_below(&load->seed, 3);
    uint64_t status;

    made->pages = 1 + draw_below(&load->seed, 40);
    made->address = drawn_address(&load->seed);
    if (kind == RAFKUDIN_MAX_ADDRESS)
        made->address += PAGE - 1;
    status = RafkudinAllocatePages(load->core, kind, type, made->pages, &made->address);
    HOLDS(status == RAFKUDIN_SUCCESS || status == RAFKUDIN_OUT_OF_RESOURCES ||
          (status == RAFKUDIN_NOT_FOUND && kind == RAFKUDIN_AT_ADDRESS));
    load->made[kind] += status == RAFKUDIN_SUCCESS;
    return status;
}

static uint64_t drawn_block(struct load *load, uint32_t type, struct held *made)
{
    uint64_t size = 1 + draw_below(&load->seed, one_of(&load->seed, 2) ? 3 * PAGE : 200);
    uint64_t status = RafkudinAllocatePool(load->core, type, size, &made->address);

    made->pages = 0;
    HOLDS(status == RAFKUDIN_SUCCESS || status == RAFKUDIN_OUT_OF_RESOURCES);
    load->made[3] += status == RAFKUDIN_SUCCESS;
    return status;
}

uint64_t load_allocate(struct load *load)
{
    static const uint32_t types[11] = {4, 0, 6, 1, 2, 3, 5, 9, 10, 0x70000001, 0x80000001};
    uint32_t type = types[draw_below(&load->seed, load->types)];
    size_t entries = RafkudinDescriptors(load->core), runs = RafkudinRuns(load->core);
    struct held made = {0, 0};
    uint64_t status = one_of(&load->seed, 3) ? drawn_block(load, type, &made)
                                             : drawn_pages(load, type, &made);

    if (status == RAFKUDIN_SUCCESS) {
        if (load->count == MAX_HELD)
            abort();
        load->held[load->count++] = made;
    } else {
        HOLDS(RafkudinDescriptors(load->core) == entries);
        HOLDS(RafkudinRuns(load->core) == runs);
    }
    return status;
}

void load_free(struct load *load)
{
    size_t at = (size_t)draw_below(&load->seed, load->count);
    struct held held = load->held[at];

    load->held[at] = load->held[--load->count];
    if (held.pages == 0)
        HOLDS(RafkudinFreePool(load->core, held.address) == RAFKUDIN_SUCCESS);
    else
        HOLDS(RafkudinFreePages(load->core, held.address, held.pages) == RAFKUDIN_SUCCESS);
}

void map_take(struct map *map, struct rafkudin *core)
{
    uint64_t step = 0;
    uint32_t version = 0;

    map->size = sizeof map->bytes;
    HOLDS(RafkudinGetMemoryMap(core, &map->size, map->bytes, &map->key, &step, &version) ==
          RAFKUDIN_SUCCESS);
    map->runs = RafkudinRuns(core);
}

bool map_equals(const struct map *one, const struct map *other)
{
    return one->size == other->size && one->runs == other->runs &&
           memcmp(one->bytes, other->bytes, (size_t)one->size) == 0;
}
