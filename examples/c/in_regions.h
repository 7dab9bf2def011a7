/* The programs of this folder over librafkudin_region: with this file included before them, a core
 * lies in a region of malloc's, and what places pages or checks a block uses one. */
#ifndef IN_REGIONS_H
#define IN_REGIONS_H

#include "../../include/rafkudin_region.h"

uint64_t make_in_region(const uint8_t *records, size_t size, size_t descriptor_size,
                        uint64_t granule, const struct rafkudin_driver *drivers,
                        size_t driver_count, struct rafkudin **core);
void free_with_region(struct rafkudin *core);
uint64_t place_in_region(const uint8_t *records, size_t size, size_t descriptor_size,
                         uint64_t granule, uint32_t type, uint64_t pages, uint64_t limit,
                         uint64_t *address);
uint64_t check_in_region(const uint8_t *text, size_t length, uint64_t *line);

#undef RafkudinMake
#undef RafkudinFree
#undef RafkudinPlace
#undef RafkudinCheck
#define RafkudinMake make_in_region
#define RafkudinFree free_with_region
#define RafkudinPlace place_in_region
#define RafkudinCheck check_in_region

#endif
