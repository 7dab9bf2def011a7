/* Cores in regions: regions of many sizes, of which the small ones are refused or run full with
 * nothing lost; two cores that share nothing, also over memory, where a block is at its address; and
 * regions of the sizes that RafkudinRoom returns. With `--smallest` it prints how many bytes the
 * smallest regions that serve have for an entry, a handle and a page of the pool. */
#include "points.h"

#include <rafkudin_region.h>

#include <stdio.h>
#include <stdlib.h>
#include <string.h>

#define GUARD 64
#define MAX_BLOCKS 4096

/* A region between two rows of bytes that nobody may write. */
struct guarded {
    uint8_t *all;
    uint8_t *region;
    size_t room;
};

static struct guarded guarded_region(size_t room, size_t shift)
{
    struct guarded guarded;

    guarded.all = malloc(room + 2 * GUARD + shift);
    if (guarded.all == NULL)
        abort();
    memset(guarded.all, 0xa5, room + 2 * GUARD + shift);
    guarded.region = guarded.all + GUARD + shift;
    guarded.room = room;
    return guarded;
}

static void free_guarded(struct guarded guarded)
{
    for (size_t at = 0; at < GUARD; at++)
        HOLDS(guarded.region[-1 - (ptrdiff_t)at] == 0xa5 &&
              guarded.region[guarded.room + at] == 0xa5);
    free(guarded.all);
}

/* A core of a machine with this many free pages from page 1 on. */
static uint64_t make(void *region, size_t room, uint64_t pages, struct rafkudin **core)
{
    uint64_t record[6] = {RAFKUDIN_CONVENTIONAL, 0x1000, 0, pages, 0xf, 0};

    return RafkudinMakeIn(region, room, (const uint8_t *)record, sizeof record, sizeof record, 1,
                          NULL, 0, core);
}

/* Places pages of one page, of two types in turn, until one is refused. */
static size_t fill(struct rafkudin *core, uint64_t *addresses)
{
    size_t count = 0;

    while (count < MAX_BLOCKS) {
        size_t entries = RafkudinDescriptors(core);
        uint64_t status;

        addresses[count] = 0x1000 + 0x2000 * count;
        status = RafkudinAllocatePages(core, RAFKUDIN_AT_ADDRESS, 1 + count % 6, 1,
                                       &addresses[count]);
        if (status != RAFKUDIN_SUCCESS) {
            HOLDS(status == RAFKUDIN_OUT_OF_RESOURCES);
            HOLDS(RafkudinDescriptors(core) == entries);
            break;
        }
        count++;
    }
    return count;
}

/* Places pages until the region is full and frees them, many times over. After the first times, in
 * which the core's tables come to their places, never fewer fit than before: no block is lost. */
static void use_all(struct rafkudin *core)
{
    static uint64_t addresses[MAX_BLOCKS];
    size_t fewest = MAX_BLOCKS;

    for (int round = 0; round < 20; round++) {
        size_t placed = fill(core, addresses);

        HOLDS(round < 14 || placed >= fewest);
        if (placed < fewest)
            fewest = placed;
        for (size_t at = 0; at < placed; at++)
            HOLDS(RafkudinFreePages(core, addresses[at], 1) == RAFKUDIN_SUCCESS);
        HOLDS(RafkudinDescriptors(core) == 1);
    }
}

/* Blocks of the pool and handles until the region is full. */
static void use_services(struct rafkudin *core)
{
    static const struct rafkudin_guid disk = {{1}};
    uint64_t address, handle, status = RAFKUDIN_SUCCESS;

    for (int round = 0; round < 400 && status == RAFKUDIN_SUCCESS; round++) {
        address = handle = 0;
        status = RafkudinInstallProtocolInterface(core, &handle, &disk, 0, 7);
        if (status == RAFKUDIN_SUCCESS)
            status = RafkudinAllocatePool(core, RAFKUDIN_BOOT_SERVICES_DATA, 1000, &address);
    }
    HOLDS(status == RAFKUDIN_SUCCESS || status == RAFKUDIN_OUT_OF_RESOURCES);
}

static void try_sizes(void)
{
    size_t made = 0, refused = 0;

    for (size_t room = 0; room < 20000; room += 41) {
        struct guarded guarded = guarded_region(room, room % 19);
        struct rafkudin *core = NULL;
        uint64_t status = make(guarded.region, room, 100000, &core);

        if (status == RAFKUDIN_SUCCESS) {
            made++;
            use_all(core);
            RafkudinFree(core);
            HOLDS(make(guarded.region, room, 100000, &core) == RAFKUDIN_SUCCESS);
            use_services(core);
        } else {
            refused++;
            HOLDS(status == RAFKUDIN_OUT_OF_RESOURCES && core == NULL);
        }
        free_guarded(guarded);
    }
    HOLDS(made > 100 && refused > 10);
}

static void try_two(void)
{
    static uint64_t first[MAX_BLOCKS], second[MAX_BLOCKS];
    struct guarded one = guarded_region(100000, 0), other = guarded_region(100000, 8);
    struct rafkudin *core = NULL, *same = NULL;
    size_t count, again;

    HOLDS(make(one.region, one.room, 100000, &core) == RAFKUDIN_SUCCESS);
    HOLDS(make(other.region, other.room, 100000, &same) == RAFKUDIN_SUCCESS);
    count = fill(core, first);
    HOLDS(RafkudinDescriptors(same) == 1);
    again = fill(same, second);
    HOLDS(again + 1 >= count && count + 1 >= again);
    memset(one.region, 0xff, one.room);
    for (size_t at = 0; at < again; at++)
        HOLDS(RafkudinFreePages(same, second[at], 1) == RAFKUDIN_SUCCESS);
    HOLDS(RafkudinDescriptors(same) == 1);
    memset(one.region, 0xa5, one.room);
    free_guarded(one);
    free_guarded(other);
}

/* ---- How large a region is ---- */

/* The page that is allocated as number `at`, two of which touch and are one entry. */
static uint64_t entry_address(uint64_t at)
{
    return 0x100000000 + 0x3000 * (at / 2) + 0x1000 * (at % 2);
}

/* Whether a region serves a core with this many entries and live allocations of pages, handles of
 * eight interfaces, and pages of the pool, until all pages are freed. */
static bool serves(struct guarded guarded, uint64_t entries, uint64_t handles, uint64_t pool_pages)
{
    struct rafkudin *core = NULL;
    bool serves = make(guarded.region, guarded.room, 0x1000000, &core) == RAFKUDIN_SUCCESS;
    uint64_t placed = 0;

    for (; serves && RafkudinDescriptors(core) + 2 < entries; placed++) {
        uint64_t address = entry_address(placed);

        serves = RafkudinAllocatePages(core, RAFKUDIN_AT_ADDRESS, 2, 1, &address) ==
                 RAFKUDIN_SUCCESS;
    }
    for (uint64_t at = 0; serves && at < handles; at++) {
        uint64_t handle = 0;

        for (uint8_t guid = 1; serves && guid <= 8; guid++) {
            struct rafkudin_guid name = {{guid}};

            serves = RafkudinInstallProtocolInterface(core, &handle, &name, 0, at) ==
                     RAFKUDIN_SUCCESS;
        }
    }
    for (uint64_t at = 0; serves && at < pool_pages; at++) {
        uint64_t address = 0;

        serves = RafkudinAllocatePool(core, RAFKUDIN_BOOT_SERVICES_DATA, 2100, &address) ==
                 RAFKUDIN_SUCCESS;
    }
    for (uint64_t at = 0; serves && at < placed; at++)
        serves = RafkudinFreePages(core, entry_address(at), 1) == RAFKUDIN_SUCCESS;
    return serves;
}

static void try_room(uint64_t entries, uint64_t handles, uint64_t pool_pages)
{
    struct guarded guarded = guarded_region(RafkudinRoom(entries, handles, pool_pages), 1);

    HOLDS(serves(guarded, entries, handles, pool_pages));
    free_guarded(guarded);
}

/* The smallest room that serves, by halving: below it some larger one may fail too. */
static size_t smallest(uint64_t entries, uint64_t handles, uint64_t pool_pages)
{
    size_t low = 0, high = RafkudinRoom(entries, handles, pool_pages);

    while (high - low > 16) {
        size_t room = low + (high - low) / 2;
        struct guarded guarded = guarded_region(room, 0);

        if (serves(guarded, entries, handles, pool_pages))
            high = room;
        else
            low = room;
        free_guarded(guarded);
    }
    return high;
}

static void print_smallest(void)
{
    size_t least = smallest(4, 1, 1);

    printf("4 entries, 1 handle, 1 page: %zu bytes\n", least);
    for (size_t count = 16; count <= 2048; count *= 2)
        printf("%zu more: %zu bytes for an entry, %zu for a handle, %zu for a page\n", count,
               (smallest(4 + count, 1, 1) - least) / count,
               (smallest(4, 1 + count, 1) - least) / count,
               (smallest(4, 1, 1 + count) - least) / count);
}

/* ---- Cores in regions over memory ---- */

#define OVER_PAGES 32
#define OVER_FIRST 7

static uint64_t make_over(struct guarded region, struct guarded memory, struct rafkudin **core)
{
    uint64_t record[6] = {RAFKUDIN_CONVENTIONAL, OVER_FIRST * 0x1000, 0, OVER_PAGES, 0xf, 0};
    struct rafkudin_memory handed = {memory.region, memory.room / 0x1000};

    return RafkudinMakeOverIn(region.region, region.room, handed, OVER_FIRST,
                              (const uint8_t *)record, sizeof record, sizeof record, 1, NULL, 0,
                              core);
}

/* Blocks of all sizes: what is written through their addresses is what the core reads. */
static void use_over(struct rafkudin *core, struct guarded memory, uint8_t fill)
{
    static uint8_t bytes[OVER_PAGES * 0x1000];

    for (size_t size = 1; size <= sizeof bytes - 8; size = size * 2 + 1) {
        uint64_t address = 0;
        uint8_t *block;

        HOLDS(RafkudinAllocatePool(core, RAFKUDIN_BOOT_SERVICES_DATA, size, &address) ==
              RAFKUDIN_SUCCESS);
        block = memory.region + (address - OVER_FIRST * 0x1000);
        memset(block, fill, size);
        HOLDS(RafkudinPoolRead(core, address, bytes, size) == RAFKUDIN_SUCCESS);
        HOLDS(memcmp(block, bytes, size) == 0);
        memset(bytes, fill + 1, size);
        HOLDS(RafkudinPoolWrite(core, address, bytes, size) == RAFKUDIN_SUCCESS);
        HOLDS(memcmp(block, bytes, size) == 0);
        HOLDS(RafkudinFreePool(core, address) == RAFKUDIN_SUCCESS);
    }
}

static void try_over(void)
{
    struct guarded regions[2], memories[2];
    struct rafkudin *cores[2] = {NULL, NULL};
    uint64_t blocks[2] = {0, 0};

    for (int i = 0; i < 2; i++) {
        regions[i] = guarded_region(40000, (size_t)i);
        memories[i] = guarded_region(OVER_PAGES * 0x1000, 0);
        HOLDS(make_over(regions[i], memories[i], &cores[i]) == RAFKUDIN_SUCCESS);
        use_over(cores[i], memories[i], (uint8_t)(10 * i + 1));
        HOLDS(RafkudinAllocatePool(cores[i], RAFKUDIN_BOOT_SERVICES_DATA, 4000, &blocks[i]) ==
              RAFKUDIN_SUCCESS);
        memset(memories[i].region + (blocks[i] - OVER_FIRST * 0x1000), 0x11 * (i + 1), 4000);
    }
    for (int i = 0; i < 2; i++) {
        uint8_t seen = 0;

        HOLDS(RafkudinPoolRead(cores[i], blocks[i] + 3999, &seen, 1) == RAFKUDIN_SUCCESS);
        HOLDS(seen == 0x11 * (i + 1));
        RafkudinFree(cores[i]);
        /* Both are their caller's again. */
        HOLDS(make_over(regions[i], memories[i], &cores[i]) == RAFKUDIN_SUCCESS);
        use_over(cores[i], memories[i], 3);
        RafkudinFree(cores[i]);
        free_guarded(regions[i]);
        free_guarded(memories[i]);
    }
}

/* Regions that are too small for the core over memory, or for what its pool needs beside it. */
static void try_small_over(void)
{
    struct guarded memory = guarded_region(OVER_PAGES * 0x1000, 0);
    size_t made = 0, refused = 0;

    for (size_t room = 0; room < 12000; room += 113) {
        struct guarded region = guarded_region(room, room % 16);
        struct rafkudin *core = NULL;
        uint64_t address = 0, status = make_over(region, memory, &core);

        if (status == RAFKUDIN_SUCCESS) {
            made++;
            for (int i = 0; i < 40 && status == RAFKUDIN_SUCCESS; i++)
                status = RafkudinAllocatePool(core, (uint32_t)(1 + i % 6), 3000, &address);
            HOLDS(status == RAFKUDIN_OUT_OF_RESOURCES);
        } else {
            refused++;
            HOLDS(status == RAFKUDIN_OUT_OF_RESOURCES && core == NULL);
        }
        free_guarded(region);
    }
    HOLDS(made > 10 && refused > 10);
    free_guarded(memory);
}

static void try_null(void)
{
    uint64_t record[6] = {RAFKUDIN_CONVENTIONAL, 0x1000, 0, 16, 0xf, 0}, number = 0;
    static uint8_t region[4096];
    struct rafkudin_memory none = {NULL, 1}, one = {&number, 0};
    struct rafkudin *core = NULL;
    uint8_t byte = 0;

    HOLDS(RafkudinMakeOverIn(region, sizeof region, none, 1, (const uint8_t *)record, 48, 48, 1,
                             NULL, 0, &core) == RAFKUDIN_INVALID_PARAMETER);
    HOLDS(RafkudinMakeOverIn(NULL, 4096, one, 1, (const uint8_t *)record, 48, 48, 1, NULL, 0,
                             &core) == RAFKUDIN_INVALID_PARAMETER);
    HOLDS(make(NULL, 4096, 16, &core) == RAFKUDIN_INVALID_PARAMETER);
    HOLDS(make(region, sizeof region, 16, NULL) == RAFKUDIN_INVALID_PARAMETER);
    HOLDS(make(region, 0, 16, &core) == RAFKUDIN_OUT_OF_RESOURCES && core == NULL);
    HOLDS(RafkudinPlaceIn(NULL, 4096, (const uint8_t *)record, 48, 48, 1, 4, 1, UINT64_MAX,
                          &number) == RAFKUDIN_INVALID_PARAMETER);
    HOLDS(RafkudinPlaceIn(region, 0, (const uint8_t *)record, 48, 48, 1, 4, 1, UINT64_MAX,
                          &number) == RAFKUDIN_OUT_OF_RESOURCES);
    HOLDS(RafkudinPlaceIn(region, sizeof region, (const uint8_t *)record, 48, 48, 1, 4, 1,
                          UINT64_MAX, &number) == RAFKUDIN_SUCCESS &&
          number == 0x10000);
    HOLDS(RafkudinCheckIn(NULL, 4096, &byte, 1, &number) == RAFKUDIN_INVALID_PARAMETER);
    HOLDS(RafkudinCheckIn(region, sizeof region, NULL, 0, &number) == RAFKUDIN_INVALID_PARAMETER &&
          number == 1);
    RafkudinFree(NULL);
}

int main(int count, char **words)
{
    if (count == 2 && strcmp(words[1], "--smallest") == 0) {
        print_smallest();
        return 0;
    }
    try_null();
    try_sizes();
    try_two();
    try_over();
    try_small_over();
    for (uint64_t entries = 4; entries <= 4096; entries *= 4)
        try_room(entries, 1, 1);
    for (uint64_t handles = 4; handles <= 4096; handles *= 4)
        try_room(4, handles, 1);
    for (uint64_t pool_pages = 4; pool_pages <= 4096; pool_pages *= 4)
        try_room(4, 1, pool_pages);
    try_room(500, 200, 300);
    try_room(4000, 2000, 1000);
    return points_end("regions");
}
