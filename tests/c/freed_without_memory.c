/* Frees without memory. Some hundred drawn allocations of pages and blocks of the pool are freed in
 * drawn order while the heap refuses everything: each FreePages and FreePool returns SUCCESS, and
 * an allocation between them is served or leaves all as it was. Of allocations that are freed in
 * parts, as many FreePages as there were AllocatePages return SUCCESS, whatever they free; a later
 * one may return OUT_OF_RESOURCES, leaves all as it was then, and returns SUCCESS once there is
 * memory. A new core places pages 64 times, and frees them, without memory. A block of a page or
 * less that is taken and freed in turn takes no memory after the first time, and its bytes are 0
 * each time. Where the extents of the pool fill a group, one more is refused at each allocation that
 * it needs, or is served; all end without memory. The heap is that of refusing_heap.h, instead of
 * the library's. Each point that does not hold is printed on standard error, and then the status is
 * 1. */
#include "drawn_load.h"
#include "draws.h"
#include "points.h"
#include "refusing_heap.h"

#include <limits.h>
#include <stdlib.h>
#include <string.h>

static struct map first, before, after;

/* Allocations that were refused memory, and those that were served while the heap refuses. */
static unsigned long outs, served;

static struct rafkudin *core_of_load(uint64_t granule, bool certifies)
{
    struct rafkudin *core = NULL;

    refuse_none();
    if (RafkudinMake((const uint8_t *)load_machine, sizeof load_machine, sizeof load_machine[0],
                     granule, NULL, 0, &core) != RAFKUDIN_SUCCESS)
        abort();
    RafkudinCertify(core, certifies);
    return core;
}

/* Whether the map is as it was when it was taken, with the same key. */
static bool is_same_map(struct rafkudin *core)
{
    map_take(&after, core);
    return map_equals(&before, &after) && before.key == after.key;
}

/* ---- A load ---- */

/* Allocates while the heap refuses each allocation from one on. */
static void allocate_refused(struct load *load, unsigned long number)
{
    uint64_t status;

    map_take(&before, load->core);
    refuse(number, ULONG_MAX);
    status = load_allocate(load);
    HOLDS(status == RAFKUDIN_SUCCESS || is_same_map(load->core));
    outs += status == RAFKUDIN_OUT_OF_RESOURCES && was_refused;
    served += status == RAFKUDIN_SUCCESS;
}

/* Allocates until there is that number. Of one call in eight a later allocation is refused. */
static void fill(struct load *load, size_t count)
{
    while (load->count < count) {
        refuse_none();
        if (one_of(&load->seed, 8))
            allocate_refused(load, 1 + draw_below(&load->seed, 6));
        else
            load_allocate(load);
    }
    refuse_none();
}

/* Frees until that number is left, with the heap refusing everything. */
static void free_without_memory(struct load *load, size_t left)
{
    refuse(1, ULONG_MAX);
    while (load->count > left) {
        load_free(load);
        if (one_of(&load->seed, 4))
            allocate_refused(load, 1);
    }
    refuse_none();
}

static void try_load(uint64_t seed, uint64_t granule)
{
    static struct load load;

    load_begin(&load, core_of_load(granule, seed % 3 == 0), seed);
    map_take(&first, load.core);
    for (int round = 0; round < 3; round++) {
        fill(&load, 600);
        free_without_memory(&load, (size_t)draw_below(&load.seed, 500));
    }
    fill(&load, 600);
    free_without_memory(&load, 0);
    map_take(&after, load.core);
    HOLDS(map_equals(&first, &after));
    for (int kind = 0; kind < 4; kind++)
        HOLDS(load.made[kind] > 100);
    RafkudinFree(load.core);
    HOLDS(in_use == 0);
}

/* ---- Allocations that are freed in parts ---- */

#define WHOLES 64U
#define PAGES 40U

/* The pages that are live, by their numbers. */
struct parts {
    struct rafkudin *core;
    uint64_t seed;
    uint64_t pages[WHOLES * PAGES];
    size_t count;
};

/* Frees a drawn page, and returns whether it was refused memory at first. */
static bool free_page(struct parts *parts)
{
    size_t at = (size_t)draw_below(&parts->seed, parts->count);
    uint64_t page = parts->pages[at], status;

    parts->pages[at] = parts->pages[--parts->count];
    map_take(&before, parts->core);
    refuse(1, ULONG_MAX);
    status = RafkudinFreePages(parts->core, page * 4096, 1);
    if (status != RAFKUDIN_OUT_OF_RESOURCES) {
        HOLDS(status == RAFKUDIN_SUCCESS);
        return false;
    }
    HOLDS(was_refused && is_same_map(parts->core));
    refuse_none();
    HOLDS(RafkudinFreePages(parts->core, page * 4096, 1) == RAFKUDIN_SUCCESS);
    return true;
}

/* Pages of one type, which are one entry of the map, or of two in turn. */
static void try_parts(uint64_t seed, uint32_t types)
{
    static struct parts parts;
    unsigned long refused = 0;

    parts.core = core_of_load(1, false);
    parts.seed = seed;
    parts.count = 0;
    map_take(&first, parts.core);
    for (uint32_t whole = 0; whole < WHOLES; whole++) {
        uint64_t address = 0x10000000 + (uint64_t)whole * PAGES * 4096;

        HOLDS(RafkudinAllocatePages(parts.core, RAFKUDIN_AT_ADDRESS, 1 + whole % types, PAGES,
                                    &address) == RAFKUDIN_SUCCESS);
    }
    /* One page in two, and then the others. The first of them are as many as the allocations. */
    for (uint64_t odd = 2; odd-- > 0;) {
        for (uint64_t at = odd; at < WHOLES * PAGES; at += 2)
            parts.pages[parts.count++] = 0x10000 + at;
        for (uint64_t number = 0; parts.count > 0; number++) {
            bool is_refused = free_page(&parts);

            HOLDS(!is_refused || odd == 0 || number >= WHOLES);
            refused += is_refused;
        }
    }
    refuse_none();
    HOLDS(refused > 10);
    map_take(&after, parts.core);
    HOLDS(map_equals(&first, &after));
    RafkudinFree(parts.core);
    HOLDS(in_use == 0);
}

/* The middle page of each of some allocations that are one entry of the map. */
static void try_by_hand(void)
{
    struct rafkudin *core = core_of_load(1, false);
    uint64_t addresses[WHOLES];

    for (size_t at = 0; at < WHOLES; at++) {
        addresses[at] = 0;
        HOLDS(RafkudinAllocatePages(core, RAFKUDIN_ANY_PAGES, RAFKUDIN_LOADER_DATA, 3,
                                    &addresses[at]) == RAFKUDIN_SUCCESS);
    }
    refuse(1, ULONG_MAX);
    for (size_t at = 0; at < WHOLES; at++)
        HOLDS(RafkudinFreePages(core, addresses[at] + 4096, 1) == RAFKUDIN_SUCCESS);
    /* They were one entry more, which is free and placed pages by turns now. */
    HOLDS(RafkudinDescriptors(core) == COUNT(load_machine) + 1 + 2 * WHOLES);
    refuse_none();
    RafkudinFree(core);
    HOLDS(in_use == 0);
}

/* ---- The first placements ---- */

#define PREPARED 64U

/* A core takes memory for its first placements and their frees when it is made. */
static void try_first_placements(uint64_t seed, uint64_t granule)
{
    struct rafkudin *core = core_of_load(granule, false);
    uint64_t addresses[PREPARED], pages[PREPARED];

    map_take(&first, core);
    refuse(1, ULONG_MAX);
    for (size_t at = 0; at < PREPARED; at++) {
        pages[at] = 1 + draw_below(&seed, 40);
        addresses[at] = 0;
        HOLDS(RafkudinAllocatePages(core, RAFKUDIN_ANY_PAGES, 1 + (uint32_t)draw_below(&seed, 6),
                                    pages[at], &addresses[at]) == RAFKUDIN_SUCCESS);
    }
    for (size_t left = PREPARED; left > 0; left--) {
        size_t at = (size_t)draw_below(&seed, left);

        HOLDS(RafkudinFreePages(core, addresses[at], pages[at]) == RAFKUDIN_SUCCESS);
        addresses[at] = addresses[left - 1];
        pages[at] = pages[left - 1];
    }
    refuse_none();
    map_take(&after, core);
    HOLDS(map_equals(&first, &after));
    RafkudinFree(core);
    HOLDS(in_use == 0);
}

/* ---- A block by turns ---- */

#define LARGEST_IN_A_PAGE 4088U

/* Each time the block has an extent of its own, of another type, which lies where the last one lay
 * in the library's memory. */
static void try_turns(uint64_t seed)
{
    static uint8_t bytes[LARGEST_IN_A_PAGE];
    struct rafkudin *core = core_of_load(1, false);

    for (int turn = 0; turn < 200; turn++) {
        uint64_t address = 0;
        size_t size = 1 + (size_t)draw_below(&seed, LARGEST_IN_A_PAGE), set = 0;

        HOLDS(RafkudinAllocatePool(core, 1 + (uint32_t)draw_below(&seed, 6), size, &address) ==
              RAFKUDIN_SUCCESS);
        HOLDS(RafkudinPoolRead(core, address, bytes, size) == RAFKUDIN_SUCCESS);
        for (size_t at = 0; at < size; at++)
            set += bytes[at] != 0;
        HOLDS(set == 0);
        memset(bytes, 0xa5, size);
        HOLDS(RafkudinPoolWrite(core, address, bytes, size) == RAFKUDIN_SUCCESS);
        HOLDS(RafkudinFreePool(core, address) == RAFKUDIN_SUCCESS);
        refuse(1, ULONG_MAX);
    }
    refuse_none();
    RafkudinFree(core);
    HOLDS(in_use == 0);
}

/* ---- An extent more in a full group ---- */

/* The extents of a group before it is cut into two. */
#define GROUP 128U

/* Takes a block of a page, which has an extent of its own, once each allocation that it needs was
 * refused in turn. Returns at which one nothing was refused: a group that a refused call cut in two
 * stays so. */
static unsigned long take_refused(struct rafkudin *core, uint64_t *block)
{
    unsigned long number = 0;
    uint64_t status;

    map_take(&before, core);
    do {
        refuse(++number, ULONG_MAX);
        status = RafkudinAllocatePool(core, RAFKUDIN_LOADER_DATA, LARGEST_IN_A_PAGE, block);
        HOLDS(status == RAFKUDIN_SUCCESS || (was_refused && is_same_map(core)));
    } while (status == RAFKUDIN_OUT_OF_RESOURCES && number < 1000);
    HOLDS(status == RAFKUDIN_SUCCESS);
    refuse_none();
    return number;
}

/* One extent more than a group holds needs memory for another group. */
static void try_full_group(void)
{
    struct rafkudin *core = core_of_load(1, false);
    uint64_t blocks[GROUP + 1] = {0};
    unsigned long last = 0, next;

    map_take(&first, core);
    for (size_t at = 0; at < GROUP; at++)
        last = take_refused(core, &blocks[at]);
    next = take_refused(core, &blocks[GROUP]);
    HOLDS(next > last);
    refuse(1, ULONG_MAX);
    for (size_t at = 0; at <= GROUP; at++)
        HOLDS(RafkudinFreePool(core, blocks[at * 50 % (GROUP + 1)]) == RAFKUDIN_SUCCESS);
    refuse_none();
    map_take(&after, core);
    HOLDS(map_equals(&first, &after));
    RafkudinFree(core);
    HOLDS(in_use == 0);
}

/* A core for which there is no memory is not made, whichever allocation is the first that is
 * refused. */
static void try_making(void)
{
    unsigned long number = 0;
    uint64_t status;

    do {
        struct rafkudin *core = NULL;

        refuse(++number, ULONG_MAX);
        status = RafkudinMake((const uint8_t *)load_machine, sizeof load_machine,
                              sizeof load_machine[0], 1, NULL, 0, &core);
        HOLDS(status == (was_refused ? RAFKUDIN_OUT_OF_RESOURCES : RAFKUDIN_SUCCESS));
        HOLDS((core != NULL) == (status == RAFKUDIN_SUCCESS));
        RafkudinFree(core);
        HOLDS(in_use == 0);
    } while (status != RAFKUDIN_SUCCESS && number < 1000);
    HOLDS(number > 10);
    refuse_none();
}

int main(void)
{
    for (uint64_t seed = 1; seed <= 24; seed++)
        try_load(seed, seed % 4 < 2 ? 1 : 16);
    HOLDS(outs > 1000 && served > 100);
    for (uint64_t seed = 1; seed <= 8; seed++)
        try_parts(seed, 1 + seed % 2);
    try_by_hand();
    for (uint64_t seed = 1; seed <= 40; seed++)
        try_first_placements(seed, seed % 2 == 0 ? 1 : 16);
    for (uint64_t seed = 1; seed <= 8; seed++)
        try_turns(seed);
    try_full_group();
    try_making();
    return points_end("freed_without_memory");
}
