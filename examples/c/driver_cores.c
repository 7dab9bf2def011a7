/* The cores of `driver_turns`, and what they have. */
#include "driver_cores.h"

#include "points.h"

#include <stdlib.h>
#include <string.h>

const struct rafkudin_guid driver_binding = {
    {0xab, 0x31, 0xa0, 0x18, 0x43, 0xb4, 0x1a, 0x4d, 0xa5, 0xc0, 0x0c, 0x09, 0x26, 0x1e, 0x9f, 0x71}};

struct rafkudin_guid protocol(unsigned number)
{
    struct rafkudin_guid guid = {{(uint8_t)(number + 1)}};

    return guid;
}

struct rafkudin *make_core(const struct rafkudin_driver *drivers, size_t count)
{
    uint8_t record[RAFKUDIN_DESCRIPTOR_SIZE] = {[0] = 7, [9] = 0x10, [26] = 1};
    struct rafkudin *core = NULL;

    if (RafkudinMake(record, sizeof record, sizeof record, 1, drivers, count, &core) !=
        RAFKUDIN_SUCCESS)
        abort();
    return core;
}

/* ---- What a core has ---- */

size_t handles_of(struct rafkudin *core, uint32_t search, const struct rafkudin_guid *guid,
                  uint64_t *handles)
{
    uint64_t size = MAX_HANDLES * 8;

    if (RafkudinLocateHandle(core, search, guid, 0, &size, handles) != RAFKUDIN_SUCCESS)
        return 0;
    return (size_t)size / 8;
}

/* The open items on an interface, 24 bytes each. */
static size_t items_of(struct rafkudin *core, uint64_t handle, const struct rafkudin_guid *guid,
                       uint8_t *items)
{
    uint64_t block = 0, count = 0;

    if (RafkudinOpenProtocolInformation(core, handle, guid, &block, &count) != RAFKUDIN_SUCCESS ||
        count == 0)
        return 0;
    if (count > MAX_HANDLES)
        abort();
    HOLDS(RafkudinPoolRead(core, block, items, count * 24) == RAFKUDIN_SUCCESS);
    HOLDS(RafkudinFreePool(core, block) == RAFKUDIN_SUCCESS);
    return (size_t)count;
}

static uint64_t number_at(const uint8_t *bytes, size_t count)
{
    uint64_t number = 0;

    while (count > 0)
        number = number << 8 | bytes[--count];
    return number;
}

bool is_held(struct rafkudin *core, uint64_t handle, const struct rafkudin_guid *guid)
{
    uint8_t items[MAX_HANDLES * 24];
    size_t count = items_of(core, handle, guid, items);

    for (size_t i = 0; i < count; i++)
        if ((number_at(items + 24 * i + 16, 4) & (RAFKUDIN_BY_DRIVER | RAFKUDIN_EXCLUSIVE)) != 0)
            return true;
    return false;
}

bool carries(struct rafkudin *core, uint64_t handle, const struct rafkudin_guid *guid)
{
    uint64_t value = 0;

    return RafkudinHandleProtocol(core, handle, guid, &value) == RAFKUDIN_SUCCESS;
}

/* Takes out the items that are open for a child. */
static size_t without_children(uint8_t *items, size_t count)
{
    size_t kept = 0;

    for (size_t i = 0; i < count; i++)
        if (number_at(items + 24 * i + 16, 4) != RAFKUDIN_BY_CHILD_CONTROLLER)
            memmove(items + 24 * kept++, items + 24 * i, 24);
    return kept;
}

bool are_same(struct rafkudin *one, struct rafkudin *two, bool but_children)
{
    static uint64_t handles[2][MAX_HANDLES];
    static uint8_t items[2][MAX_HANDLES * 24];
    size_t count = handles_of(one, RAFKUDIN_ALL_HANDLES, NULL, handles[0]);

    if (handles_of(two, RAFKUDIN_ALL_HANDLES, NULL, handles[1]) != count ||
        memcmp(handles[0], handles[1], count * 8) != 0)
        return false;
    for (size_t i = 0; i < count; i++) {
        struct rafkudin_guid guids[2][PROTOCOLS + 1];
        uint64_t counts[2] = {0, 0};

        RafkudinProtocolsPerHandle(one, handles[0][i], guids[0], PROTOCOLS + 1, &counts[0]);
        RafkudinProtocolsPerHandle(two, handles[0][i], guids[1], PROTOCOLS + 1, &counts[1]);
        if (counts[0] != counts[1] || memcmp(guids[0], guids[1], counts[0] * 16) != 0)
            return false;
        for (size_t k = 0; k < counts[0]; k++) {
            uint64_t values[2] = {0, 0};
            size_t open = items_of(one, handles[0][i], &guids[0][k], items[0]);
            size_t other = items_of(two, handles[0][i], &guids[0][k], items[1]);

            if (but_children)
                other = without_children(items[1], other);
            RafkudinHandleProtocol(one, handles[0][i], &guids[0][k], &values[0]);
            RafkudinHandleProtocol(two, handles[0][i], &guids[0][k], &values[1]);
            if (values[0] != values[1] || other != open ||
                memcmp(items[0], items[1], open * 24) != 0)
                return false;
        }
    }
    return true;
}
