/* What small_core.h declares. */
#include "small_core.h"

#include <stdlib.h>
#include <string.h>

struct rafkudin_guid guid_of(uint8_t byte)
{
    static const struct rafkudin_guid binding = {{0xab, 0x31, 0xa0, 0x18, 0x43, 0xb4, 0x1a, 0x4d,
                                                  0xa5, 0xc0, 0x0c, 0x09, 0x26, 0x1e, 0x9f, 0x71}};
    struct rafkudin_guid guid;

    if (byte == BINDING)
        return binding;
    memset(guid.bytes, byte, sizeof guid.bytes);
    return guid;
}

void put_record(uint8_t *record, uint32_t type, uint64_t first, uint64_t pages,
                uint64_t attributes)
{
    const uint64_t numbers[6] = {type, first * PAGE_SIZE, 0, pages, attributes, 0};

    memcpy(record, numbers, sizeof numbers);
}

struct rafkudin *core_of_pages(uint64_t first, uint64_t pages,
                               const struct rafkudin_driver *drivers, size_t count)
{
    uint8_t record[RAFKUDIN_DESCRIPTOR_SIZE];
    struct rafkudin *core = NULL;

    put_record(record, RAFKUDIN_CONVENTIONAL, first, pages, 0xf);
    if (RafkudinMake(record, sizeof record, sizeof record, 1, drivers, count, &core) !=
        RAFKUDIN_SUCCESS)
        abort();
    return core;
}

struct rafkudin *small_core(const struct rafkudin_driver *drivers, size_t count)
{
    return core_of_pages(16, 512, drivers, count);
}

struct rafkudin_driver driver_for(uint32_t version, uint8_t needs, uint8_t opens)
{
    struct rafkudin_driver driver = {.version = version, .stops = true};

    driver.needs[0] = guid_of(needs);
    driver.needs_count = 1;
    driver.opens[0] = guid_of(opens);
    driver.opens_count = 1;
    return driver;
}

void add_child(struct rafkudin_driver *driver, uint8_t byte, uint64_t value)
{
    struct rafkudin_child *child = &driver->children[driver->children_count++];

    child->interfaces[0] = (struct rafkudin_interface){guid_of(byte), value};
    child->count = 1;
}
