/* Allocations of pages and blocks of the pool that tests draw, and free in drawn order. */
#ifndef DRAWN_LOAD_H
#define DRAWN_LOAD_H

#include <rafkudin.h>

/* The EFI_MEMORY_DESCRIPTORs of a machine with free memory in five places. */
extern const uint64_t load_machine[7][6];

/* The most that are live, and the most entries of a memory map. */
#define MAX_HELD 16384
#define MAX_ENTRIES 16384

/* Live pages of one AllocatePages, or a live block of the pool, which has 0 pages. */
struct held {
    uint64_t address;
    uint64_t pages;
};

struct load {
    struct rafkudin *core;
    uint64_t seed;
    uint64_t types; /* of how many types it draws */
    struct held held[MAX_HELD];
    size_t count;
    unsigned long made[4]; /* AllocatePages of each kind, and AllocatePool */
};

/* A memory map with its key and the number of runs of pages. */
struct map {
    uint8_t bytes[MAX_ENTRIES * RAFKUDIN_DESCRIPTOR_SIZE];
    uint64_t size, key;
    size_t runs;
};

/* Begins a load on a core of the machine above: of two types, which merge in the map where they
 * touch, or of eleven. */
void load_begin(struct load *load, struct rafkudin *core, uint64_t seed);

/* Makes a drawn AllocatePages of 1 to 40 pages, or AllocatePool of 1 byte to 3 pages, and returns
 * its status. What is not served leaves the numbers of entries and runs. */
uint64_t load_allocate(struct load *load);

/* Frees a drawn one of those that are live: that returns SUCCESS. */
void load_free(struct load *load);

void map_take(struct map *map, struct rafkudin *core);

/* Whether two maps have the same entries, and as many runs. */
bool map_equals(const struct map *one, const struct map *other);

#endif
