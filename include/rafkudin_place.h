/* Rafkudin's placement by itself: what RafkudinPlace and RafkudinCheck do, with no core and no
 * heap. The caller passes a region of memory for the call.
 *
 * A program that includes this header is linked with librafkudin_place.a, beside librafkudin.a or
 * without it. That library needs memcpy, memmove and memset and nothing else.
 *
 * A region is any memory, from any address on, that the library alone reads and writes while the
 * call runs. Its bytes need no value, and it is the caller's again when the call returns. It must
 * not overlap what the call's other pointers point to. */
#ifndef RAFKUDIN_PLACE_H
#define RAFKUDIN_PLACE_H

#include "rafkudin.h"

#ifdef __cplusplus
extern "C" {
#endif

/* A region as the library takes it: units of 16 bytes, from an address on that is a multiple of 16.
 * `start` is not null, and `units` below 2^59. */
struct rafkudin_region {
    void *start;
    size_t units;
};

RAFKUDIN_API rafkudin_uint64 RafkudinPlaceInRegion(
    struct rafkudin_region region, const uint8_t *records, size_t size, size_t descriptor_size,
    rafkudin_uint64 granule, uint32_t MemoryType, rafkudin_uint64 Pages, rafkudin_uint64 limit,
    rafkudin_uint64 *address);
RAFKUDIN_API rafkudin_uint64 RafkudinCheckInRegion(struct rafkudin_region region,
                                                   const uint8_t *text, size_t length,
                                                   rafkudin_uint64 *line);

/* The whole units of 16 bytes in the `room` bytes from `start` on. */
static inline struct rafkudin_region rafkudin_region_in(void *start, size_t room)
{
    size_t before = ((size_t)0 - (size_t)start) % 16;
    struct rafkudin_region region;

    region.start = (unsigned char *)start + before;
    region.units = room < before ? 0 : (room - before) / 16;
    if (region.units >= (size_t)1 << 59)
        region.units = ((size_t)1 << 59) - 1;
    return region;
}

/* The bytes of a region that serve RafkudinPlaceIn for `size` bytes of records, and RafkudinCheckIn
 * for a text of `length` bytes. */
#define RAFKUDIN_PLACE_ROOM(size) (6 * (size_t)(size) + 4096)
#define RAFKUDIN_CHECK_ROOM(length) (16 * (size_t)(length) + 4096)

/* RafkudinPlace with the `room` bytes of a region as its memory.
 *
 * INVALID_PARAMETER: `region` is null; and as for RafkudinPlace. OUT_OF_RESOURCES: no permitted
 * place, or the region is too small. */
static inline rafkudin_uint64 RafkudinPlaceIn(void *region, size_t room, const uint8_t *records,
                                              size_t size, size_t descriptor_size,
                                              rafkudin_uint64 granule, uint32_t MemoryType,
                                              rafkudin_uint64 Pages, rafkudin_uint64 limit,
                                              rafkudin_uint64 *address)
{
    rafkudin_uint64 nothing = 0;

    if (region == NULL || address == NULL || (records == NULL && size != 0))
        return RAFKUDIN_INVALID_PARAMETER;
    if (records == NULL)
        records = (const uint8_t *)(void *)&nothing;
    return RafkudinPlaceInRegion(rafkudin_region_in(region, room), records, size, descriptor_size,
                                 granule, MemoryType, Pages, limit, address);
}

/* RafkudinCheck with the `room` bytes of a region as its memory.
 *
 * INVALID_PARAMETER: `region` is null; and as for RafkudinCheck. OUT_OF_RESOURCES: the region is
 * too small. */
static inline rafkudin_uint64 RafkudinCheckIn(void *region, size_t room, const uint8_t *text,
                                              size_t length, rafkudin_uint64 *line)
{
    rafkudin_uint64 nothing = 0;

    if (region == NULL || line == NULL || (text == NULL && length != 0))
        return RAFKUDIN_INVALID_PARAMETER;
    if (text == NULL)
        text = (const uint8_t *)(void *)&nothing;
    return RafkudinCheckInRegion(rafkudin_region_in(region, room), text, length, line);
}

#ifdef __cplusplus
}
#endif
#endif
