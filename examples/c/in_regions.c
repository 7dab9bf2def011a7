/* Regions of malloc's, one for each core and for each call without a core. */
#include "in_regions.h"

#include <stdlib.h>

#undef RafkudinFree

#define REGION_SIZE ((size_t)64 << 20)

/* The regions of the cores that this thread made and did not free. */
struct region {
    struct region *next;
    struct rafkudin *core;
    void *memory;
};

static _Thread_local struct region *regions;

uint64_t make_in_region(const uint8_t *records, size_t size, size_t descriptor_size,
                        uint64_t granule, const struct rafkudin_driver *drivers,
                        size_t driver_count, struct rafkudin **core)
{
    struct region *made = malloc(sizeof *made);
    uint64_t status = RAFKUDIN_OUT_OF_RESOURCES;

    if (made == NULL)
        return status;
    made->memory = malloc(REGION_SIZE);
    if (made->memory != NULL)
        status = RafkudinMakeIn(made->memory, REGION_SIZE, records, size, descriptor_size, granule,
                                drivers, driver_count, core);
    if (status != RAFKUDIN_SUCCESS) {
        free(made->memory);
        free(made);
        return status;
    }
    made->core = *core;
    made->next = regions;
    regions = made;
    return status;
}

void free_with_region(struct rafkudin *core)
{
    RafkudinFree(core);
    for (struct region **at = &regions; *at != NULL; at = &(*at)->next) {
        struct region *found = *at;

        if (found->core == core) {
            *at = found->next;
            free(found->memory);
            free(found);
            return;
        }
    }
}

uint64_t place_in_region(const uint8_t *records, size_t size, size_t descriptor_size,
                         uint64_t granule, uint32_t type, uint64_t pages, uint64_t limit,
                         uint64_t *address)
{
    size_t room = RAFKUDIN_PLACE_ROOM(size);
    void *region = malloc(room);
    uint64_t status = RafkudinPlaceIn(region, room, records, size, descriptor_size, granule, type,
                                      pages, limit, address);

    free(region);
    return status;
}

uint64_t check_in_region(const uint8_t *text, size_t length, uint64_t *line)
{
    size_t room = RAFKUDIN_CHECK_ROOM(length);
    void *region = malloc(room);
    uint64_t status = RafkudinCheckIn(region, room, text, length, line);

    free(region);
    return status;
}
