/* Rafkudin in a region: cores all of whose memory is a region that their caller passes, for a part
 * of a firmware that calls no heap.
 *
 * A program that includes this header is linked with librafkudin_region.a instead of librafkudin.a.
 * That library has the functions of rafkudin.h but four: instead of RafkudinMake and
 * RafkudinMakeOver it has RafkudinMakeIn and RafkudinMakeOverIn, which take a region, and instead
 * of RafkudinPlace and RafkudinCheck there are those of rafkudin_place.h, which librafkudin_place.a
 * has. It needs memcpy, memmove and memset and nothing else, and two cores share nothing. docs/C.md
 * says how it is linked.
 *
 * A region is any memory, from any address on, that the library alone reads and writes while the
 * core in it is called. Its bytes need no value. Memory runs out for a service of such a core, or
 * for RafkudinMakeIn, where the region has no room left: then it returns OUT_OF_RESOURCES. For
 * FreePool and FreePages room is reserved, as rafkudin.h says. */
#ifndef RAFKUDIN_REGION_H
#define RAFKUDIN_REGION_H

#include "rafkudin_place.h"

#ifdef __cplusplus
extern "C" {
#endif

RAFKUDIN_API rafkudin_uint64 RafkudinMakeInRegion(
    struct rafkudin_region region, const uint8_t *records, size_t size, size_t descriptor_size,
    rafkudin_uint64 granule, const struct rafkudin_driver *drivers, size_t driver_count,
    struct rafkudin **core);

RAFKUDIN_API rafkudin_uint64 RafkudinMakeOverInRegion(
    struct rafkudin_region region, struct rafkudin_memory memory, rafkudin_uint64 first_page,
    const uint8_t *records, size_t size, size_t descriptor_size, rafkudin_uint64 granule,
    const struct rafkudin_driver *drivers, size_t driver_count, struct rafkudin **core);

/* How many bytes of a region serve a core whose memory map never has more than `entries` entries,
 * on which no more than `entries` allocations of pages and `handles` handles with 8 interfaces each
 * are live, and whose pool has no more than `pool_pages` pages. Several allocations can be one
 * entry. Of allocations that one FreePages frees together, all but one still count as live, but
 * never more in all than there are pages to free. A number above 2^32 - 1 counts as that. That it
 * serves is measured and not proved. */
RAFKUDIN_API rafkudin_uint64 RafkudinRoom(rafkudin_uint64 entries, rafkudin_uint64 handles,
                                          rafkudin_uint64 pool_pages);

/* RafkudinMake in the `room` bytes of a region; the core takes memory for a placement with that
 * placement. After RafkudinFree, which has nothing to free, the region is its caller's again.
 *
 * INVALID_PARAMETER: `region` is null; and as for RafkudinMake. OUT_OF_RESOURCES: the region is too
 * small. */
static inline rafkudin_uint64 RafkudinMakeIn(void *region, size_t room, const uint8_t *records,
                                             size_t size, size_t descriptor_size,
                                             rafkudin_uint64 granule,
                                             const struct rafkudin_driver *drivers,
                                             size_t driver_count, struct rafkudin **core)
{
    rafkudin_uint64 nothing = 0;

    if (region == NULL || core == NULL || (records == NULL && size != 0) ||
        (drivers == NULL && driver_count != 0))
        return RAFKUDIN_INVALID_PARAMETER;
    if (records == NULL)
        records = (const uint8_t *)(void *)&nothing;
    if (drivers == NULL)
        drivers = (const struct rafkudin_driver *)(void *)&nothing;
    return RafkudinMakeInRegion(rafkudin_region_in(region, room), records, size, descriptor_size,
                                granule, drivers, driver_count, core);
}

/* RafkudinMakeOver in the `room` bytes of a region, which must not overlap the memory. The region
 * has the byte for each page, but not the bytes of the pool.
 *
 * INVALID_PARAMETER: `region` is null; and as for RafkudinMakeOver. OUT_OF_RESOURCES: the region is
 * too small. */
static inline rafkudin_uint64
RafkudinMakeOverIn(void *region, size_t room, struct rafkudin_memory memory,
                   rafkudin_uint64 first_page, const uint8_t *records, size_t size,
                   size_t descriptor_size, rafkudin_uint64 granule,
                   const struct rafkudin_driver *drivers, size_t driver_count,
                   struct rafkudin **core)
{
    rafkudin_uint64 nothing = 0;

    if (region == NULL || memory.start == NULL || memory.pages >= (size_t)1 << 51 || core == NULL ||
        (records == NULL && size != 0) || (drivers == NULL && driver_count != 0))
        return RAFKUDIN_INVALID_PARAMETER;
    if (records == NULL)
        records = (const uint8_t *)(void *)&nothing;
    if (drivers == NULL)
        drivers = (const struct rafkudin_driver *)(void *)&nothing;
    return RafkudinMakeOverInRegion(rafkudin_region_in(region, room), memory, first_page, records,
                                    size, descriptor_size, granule, drivers, driver_count, core);
}

#ifdef __cplusplus
}
#endif
#endif
