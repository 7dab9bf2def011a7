/* Placement and check alone, with no core and no heap: what each argument may be, and regions of all
 * sizes up to those that serve, of which the small ones are refused. No byte outside a region
 * changes. */
#include "points.h"

#include "../../include/rafkudin_place.h"

#include <stdlib.h>
#include <string.h>

#define GUARD 64
#define MAX_ENTRIES 256

/* A map of `entries` free stretches of two pages each, with a page of another type behind each. */
static size_t striped_map(uint8_t *map, size_t entries)
{
    for (size_t at = 0; at < entries; at++) {
        uint64_t record[5] = {at % 2 ? RAFKUDIN_LOADER_DATA : RAFKUDIN_CONVENTIONAL,
                              0x1000 * (at + at / 2 + at % 2), 0, 2 - at % 2, 0xf};

        memcpy(map + RAFKUDIN_DESCRIPTOR_SIZE * at, record, sizeof record);
    }
    return RAFKUDIN_DESCRIPTOR_SIZE * entries;
}

/* A certificate block. Machine A of docs/FORMATS.md, and two pages of type 6 anywhere on it. */
static const char block[] = "certificate\nmap 4\n7 0 160 0xf\n7 256 768 0xf\n"
                            "6 1024 16 0x800000000000000f\n7 1040 1008 0xf\n"
                            "request 6 2 4503599627370496\nbounds 3\n0 160 5 158\n256 768 4 1022\n"
                            "1040 1008 4 1040\nanswer 1040\nend\n";

/* A region between two rows of bytes, at some distance from a multiple of 16. */
static uint8_t *guarded_region(size_t room, size_t shift, uint8_t **all)
{
    *all = malloc(room + 2 * GUARD + shift);
    if (*all == NULL)
        abort();
    memset(*all, 0xa5, room + 2 * GUARD + shift);
    return *all + GUARD + shift;
}

static void free_guarded(uint8_t *all, const uint8_t *region, size_t room)
{
    bool same = true;

    for (size_t at = 1; at <= GUARD; at++)
        same &= region[-(ptrdiff_t)at] == 0xa5 && region[room + at - 1] == 0xa5;
    HOLDS(same);
    free(all);
}

static uint64_t place(size_t room, const uint8_t *map, size_t size, uint64_t pages,
                      uint64_t *address)
{
    uint8_t *all, *region = guarded_region(room, room % 19, &all);
    uint64_t status = RafkudinPlaceIn(region, room, map, size, RAFKUDIN_DESCRIPTOR_SIZE, 1,
                                      RAFKUDIN_BOOT_SERVICES_DATA, pages, UINT64_MAX, address);

    free_guarded(all, region, room);
    return status;
}

static uint64_t check(size_t room, const uint8_t *text, size_t length, uint64_t *line)
{
    uint8_t *all, *region = guarded_region(room, room % 19, &all);
    uint64_t status = RafkudinCheckIn(region, room, text, length, line);

    free_guarded(all, region, room);
    return status;
}

/* A region serves that is as large as the header says; each smaller one serves too or is refused. */
static void try_regions(void)
{
    static uint8_t map[RAFKUDIN_DESCRIPTOR_SIZE * MAX_ENTRIES];
    size_t served = 0, refused = 0;

    for (size_t entries = 1; entries <= MAX_ENTRIES; entries += 15) {
        size_t size = striped_map(map, entries), most = RAFKUDIN_PLACE_ROOM(size);
        uint64_t best = 0;

        HOLDS(place(most, map, size, 2, &best) == RAFKUDIN_SUCCESS);
        for (size_t room = 0; room < most; room += 41) {
            uint64_t found = 1, status = place(room, map, size, 2, &found);

            if (status == RAFKUDIN_SUCCESS)
                served++;
            else
                refused++;
            HOLDS(status == RAFKUDIN_SUCCESS ? found == best
                                             : status == RAFKUDIN_OUT_OF_RESOURCES && found == 1);
        }
    }
    HOLDS(served > 100 && refused > 100);
}

static void try_checks(void)
{
    const uint8_t *text = (const uint8_t *)block;
    size_t length = sizeof block - 1, most = RAFKUDIN_CHECK_ROOM(length), served = 0;
    uint8_t changed[sizeof block - 1];
    uint64_t line = 0;

    for (size_t room = 0; room < most; room += 7) {
        uint64_t status = check(room, text, length, &line);

        served += status == RAFKUDIN_SUCCESS;
        HOLDS((status == RAFKUDIN_SUCCESS || status == RAFKUDIN_OUT_OF_RESOURCES) && line == 0);
    }
    HOLDS(served > 10);
    memcpy(changed, block, length);
    changed[length - 6] = '1';
    HOLDS(check(most, changed, length, &line) == RAFKUDIN_ACCESS_DENIED && line == 0);
    HOLDS(check(most, text, length - 1, &line) == RAFKUDIN_SUCCESS && line == 0);
    HOLDS(check(most, text, length - 5, &line) == RAFKUDIN_INVALID_PARAMETER && line == 13);
}

static void try_arguments(void)
{
    static uint8_t map[RAFKUDIN_DESCRIPTOR_SIZE * 3], region[8192];
    size_t size = striped_map(map, 3);
    uint64_t number = 7;

    HOLDS(RafkudinPlaceIn(NULL, 4096, map, size, 48, 1, 4, 1, UINT64_MAX, &number) ==
          RAFKUDIN_INVALID_PARAMETER);
    HOLDS(RafkudinPlaceIn(region, sizeof region, NULL, size, 48, 1, 4, 1, UINT64_MAX, &number) ==
          RAFKUDIN_INVALID_PARAMETER);
    HOLDS(RafkudinPlaceIn(region, sizeof region, map, size, 48, 1, 4, 1, UINT64_MAX, NULL) ==
          RAFKUDIN_INVALID_PARAMETER);
    HOLDS(RafkudinPlaceIn(region, sizeof region, map, size, 47, 1, 4, 1, UINT64_MAX, &number) ==
          RAFKUDIN_INVALID_PARAMETER);
    HOLDS(RafkudinPlaceIn(region, sizeof region, map, size, 48, 2, 4, 1, UINT64_MAX, &number) ==
          RAFKUDIN_INVALID_PARAMETER);
    HOLDS(RafkudinPlaceIn(region, sizeof region, map, size, 48, 1, 7, 1, UINT64_MAX, &number) ==
          RAFKUDIN_INVALID_PARAMETER);
    HOLDS(RafkudinPlaceIn(region, sizeof region, map, size, 48, 1, 4, 0, UINT64_MAX, &number) ==
          RAFKUDIN_INVALID_PARAMETER);
    HOLDS(RafkudinPlaceIn(region, sizeof region, map, size, 48, 1, 4, 3, UINT64_MAX, &number) ==
          RAFKUDIN_OUT_OF_RESOURCES);
    HOLDS(RafkudinPlaceIn(region, sizeof region, NULL, 0, 48, 1, 4, 1, UINT64_MAX, &number) ==
          RAFKUDIN_OUT_OF_RESOURCES);
    HOLDS(RafkudinPlaceIn(region, 0, map, size, 48, 1, 4, 1, UINT64_MAX, &number) ==
          RAFKUDIN_OUT_OF_RESOURCES);
    HOLDS(number == 7);
    HOLDS(RafkudinPlaceIn(region, sizeof region, map, size, 48, 1, 4, 1, 0x3fff, &number) ==
              RAFKUDIN_SUCCESS &&
          number == 0x3000);
    HOLDS(RafkudinCheckIn(NULL, 4096, map, 1, &number) == RAFKUDIN_INVALID_PARAMETER);
    HOLDS(RafkudinCheckIn(region, sizeof region, NULL, 1, &number) == RAFKUDIN_INVALID_PARAMETER);
    HOLDS(RafkudinCheckIn(region, sizeof region, map, 1, NULL) == RAFKUDIN_INVALID_PARAMETER);
    HOLDS(RafkudinCheckIn(region, sizeof region, NULL, 0, &number) == RAFKUDIN_INVALID_PARAMETER &&
          number == 1);
}

int main(void)
{
    try_arguments();
    try_regions();
    try_checks();
    return points_end("place_alone");
}
