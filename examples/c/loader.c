/* What a boot loader does at its end, on the memory of a machine file:
 *
 *     loader MACHINE
 *
 * It asks how long the memory map is, takes pages for it with slack for the entries that its own
 * calls will add, gets the map, and ends the boot services with the map's key. An allocation in
 * between makes the key stale, so the first try is refused; a fresh map in the same buffer has the
 * key that is taken. Each status is looked at: where one is not as it should be the loader says so
 * and ends with status 1.
 *
 * The library knows the machine's memory by addresses only. So the pages that the loader takes
 * there are represented by memory of this program, as many bytes. */
#include "fault.h"
#include "machine.h"

#include <inttypes.h>
#include <stdlib.h>

#define PAGE 4096

/* How many entries more than now the buffer has room for. */
#define SLACK 8

/* The bytes of a loader's command line, which it allocates when it should not. */
#define COMMAND_LINE 512

/* What a loader knows of the memory map. */
struct map {
    uint64_t address; /* of its pages */
    uint64_t pages;
    uint8_t *bytes; /* what represents them here */
    uint64_t size;  /* of the map in them */
    uint64_t key;
    uint64_t step; /* the size of a descriptor */
};

/* Ends the loader where a call did not end as it should. */
static void expect(const char *call, uint64_t status, uint64_t wanted)
{
    if (status != wanted)
        fail("%s: status 0x%" PRIx64 " instead of 0x%" PRIx64, call, status, wanted);
}

/* Asks how long the map is. */
static void size_map(struct rafkudin *core, struct map *map)
{
    uint32_t version = 0;

    map->size = 0;
    expect("GetMemoryMap without a buffer",
           RafkudinGetMemoryMap(core, &map->size, NULL, NULL, &map->step, &version),
           RAFKUDIN_BUFFER_TOO_SMALL);
    if (version != RAFKUDIN_DESCRIPTOR_VERSION)
        fail("descriptors of version %" PRIu32, version);
    printf("The map takes %" PRIu64 " bytes, %" PRIu64 " a descriptor.\n", map->size, map->step);
}

/* Takes pages for the map and its slack. */
static void make_room(struct rafkudin *core, struct map *map)
{
    map->pages = (map->size + SLACK * map->step + PAGE - 1) / PAGE;
    expect("AllocatePages",
           RafkudinAllocatePages(core, RAFKUDIN_ANY_PAGES, RAFKUDIN_LOADER_DATA, map->pages,
                                 &map->address),
           RAFKUDIN_SUCCESS);
    map->bytes = grow(NULL, map->pages * PAGE);
    printf("%" PRIu64 " pages for it at 0x%" PRIx64 ".\n", map->pages, map->address);
}

/* Gets the map into its pages. */
static void get_map(struct rafkudin *core, struct map *map)
{
    uint32_t version = 0;

    map->size = map->pages * PAGE;
    expect("GetMemoryMap",
           RafkudinGetMemoryMap(core, &map->size, map->bytes, &map->key, &map->step, &version),
           RAFKUDIN_SUCCESS);
    printf("The map has %" PRIu64 " descriptors and the key %" PRIu64 ".\n", map->size / map->step,
           map->key);
}

/* Sees that the map ascends and has the loader's own pages, and prints how much is free. */
static void look_at_map(const struct map *map)
{
    uint64_t end = 0, free_pages = 0;
    bool is_told = false;

    for (uint64_t at = 0; at < map->size; at += map->step) {
        struct rafkudin_descriptor entry = descriptor_at(map->bytes + at);

        if (entry.number_of_pages == 0 || entry.physical_start / PAGE < end)
            fail("the map does not ascend at 0x%" PRIx64, entry.physical_start);
        end = entry.physical_start / PAGE + entry.number_of_pages;
        if (entry.type == RAFKUDIN_CONVENTIONAL)
            free_pages += entry.number_of_pages;
        if (entry.type == RAFKUDIN_LOADER_DATA && entry.physical_start <= map->address)
            is_told |= map->address / PAGE + map->pages <= end;
    }
    if (!is_told)
        fail("the map does not list the pages at 0x%" PRIx64, map->address);
    printf("%" PRIu64 " pages are free.\n", free_pages);
}

/* Allocates after the map was got, and so makes its key stale. */
static void spoil_key(struct rafkudin *core)
{
    uint64_t address = 0;

    expect("AllocatePages",
           RafkudinAllocatePages(core, RAFKUDIN_ANY_PAGES, RAFKUDIN_LOADER_CODE, 1, &address),
           RAFKUDIN_SUCCESS);
    printf("One page more, at 0x%" PRIx64 ".\n", address);
}

/* Tries to end the boot services. Where the key is stale it gets the map anew, and tries again. */
static void exit_boot_services(struct rafkudin *core, struct map *map)
{
    uint64_t status = RafkudinExitBootServices(core, 0, map->key);

    if (status == RAFKUDIN_INVALID_PARAMETER) {
        printf("The key %" PRIu64 " is stale.\n", map->key);
        get_map(core, map);
        look_at_map(map);
        status = RafkudinExitBootServices(core, 0, map->key);
    }
    expect("ExitBootServices", status, RAFKUDIN_SUCCESS);
    printf("The boot services have ended with the key %" PRIu64 ".\n", map->key);
}

/* Sees that no service is left. */
static void see_the_end(struct rafkudin *core, const struct map *map)
{
    uint64_t size = 0, address = 0;

    expect("AllocatePool after the end",
           RafkudinAllocatePool(core, RAFKUDIN_LOADER_DATA, COMMAND_LINE, &address),
           RAFKUDIN_UNSUPPORTED);
    expect("GetMemoryMap after the end", RafkudinGetMemoryMap(core, &size, NULL, NULL, NULL, NULL),
           RAFKUDIN_UNSUPPORTED);
    expect("ExitBootServices after the end", RafkudinExitBootServices(core, 0, map->key),
           RAFKUDIN_UNSUPPORTED);
    if (RafkudinDescriptors(core) != map->size / map->step)
        fail("the map has changed after the end");
}

int main(int count, char **words)
{
    struct map map = {0};
    struct machine machine;
    struct rafkudin *core;

    fault_program = "loader";
    if (count != 2)
        fail("usage: loader MACHINE");
    machine = machine_open(words[1]);
    core = machine_core(&machine);
    machine_free(&machine);
    size_map(core, &map);
    make_room(core, &map);
    get_map(core, &map);
    look_at_map(&map);
    spoil_key(core);
    exit_boot_services(core, &map);
    see_the_end(core, &map);
    RafkudinFree(core);
    free(map.bytes);
    return 0;
}
