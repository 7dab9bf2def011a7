/* Cores on free pages, GUIDs as bytes, and table drivers, for tests. */
#ifndef SMALL_CORE_H
#define SMALL_CORE_H

#include <rafkudin.h>

/* How many pages there can be. */
#define PAGE_COUNT ((uint64_t)1 << 52)
#define PAGE_SIZE 4096U

/* The byte for the GUID of the driver binding protocol. */
#define BINDING 0xdbU

/* The GUID of a byte: all its bytes are this one, but for the driver binding protocol. */
struct rafkudin_guid guid_of(uint8_t byte);

/* Writes the descriptor of some pages. */
void put_record(uint8_t *record, uint32_t type, uint64_t first, uint64_t pages,
                uint64_t attributes);

/* A core that has some free pages alone. Where it can't be made the test ends. */
struct rafkudin *core_of_pages(uint64_t first, uint64_t pages,
                               const struct rafkudin_driver *drivers, size_t count);

/* The same with 512 pages from page 16 on. */
struct rafkudin *small_core(const struct rafkudin_driver *drivers, size_t count);

/* A driver that needs a GUID, opens one, makes no children and stops. */
struct rafkudin_driver driver_for(uint32_t version, uint8_t needs, uint8_t opens);

/* Adds a child with one interface. */
void add_child(struct rafkudin_driver *driver, uint8_t byte, uint64_t value);
#endif
