/* Tries what rafkudin.h says of the library's borders and a replay of traces does not show: sizes,
 * refused cores, what refusals leave, certificates, and two threads. Each point that is not as said
 * is printed on standard error, and then the status is 1. */
#include "machine.h"
#include "points.h"

#include <stdlib.h>
#include <string.h>
#include <threads.h>

/* What a variable holds before a call that must leave it. */
#define LEFT 0x5a5a5a5a5a5a5a5aU

#define ALL_CALLS (((uint64_t)1 << 62) - 1)

static const struct rafkudin_guid disk = {{1, 2, 3, 4, 5, 6, 7, 8, 9, 10, 11, 12, 13, 14, 15, 16}};
static const struct rafkudin_guid files = {{2}};
static const struct rafkudin_driver no_driver;

/* Writes a descriptor of a range of pages. */
static void put_record(uint8_t *record, uint32_t type, uint64_t first, uint64_t pages)
{
    memset(record, 0, RAFKUDIN_DESCRIPTOR_SIZE);
    put_number(record, 4, type);
    put_number(record + 8, 8, first * 4096);
    put_number(record + 24, 8, pages);
    put_number(record + 32, 8, 0xf);
}

static uint64_t make(const uint8_t *records, size_t size, size_t step, uint64_t granule,
                     const struct rafkudin_driver *drivers, size_t count, struct rafkudin **core)
{
    *core = NULL;
    return RafkudinMake(records, size, step, granule, drivers, count, core);
}

/* A core with 256 free pages from page 1 on. */
static struct rafkudin *make_core(void)
{
    uint8_t record[RAFKUDIN_DESCRIPTOR_SIZE];
    struct rafkudin *core;

    put_record(record, RAFKUDIN_CONVENTIONAL, 1, 256);
    if (make(record, sizeof record, sizeof record, 1, &no_driver, 0, &core) != RAFKUDIN_SUCCESS)
        abort();
    return core;
}

/* Makes a core of `size` bytes of descriptors that take `step` bytes each. */
static uint64_t made_with(size_t size, size_t step, uint64_t granule)
{
    static uint8_t records[4096];
    struct rafkudin *core;
    uint64_t status;

    memset(records, 0, sizeof records);
    for (size_t at = 0; step >= 40 && at + step <= sizeof records; at += step) {
        put_number(records + at, 4, RAFKUDIN_CONVENTIONAL);
        put_number(records + at + 8, 8, at * 4096);
        put_number(records + at + 24, 8, 1);
    }
    status = make(records, size, step, granule, &no_driver, 0, &core);
    HOLDS((status == RAFKUDIN_SUCCESS) == (core != NULL));
    if (core != NULL) {
        HOLDS(RafkudinDescriptors(core) == size / step);
        HOLDS(RafkudinCallsLeft(core) == ALL_CALLS);
        RafkudinFree(core);
    }
    return status;
}

static void try_sizes(void)
{
    HOLDS(made_with(0, 48, 1) == RAFKUDIN_SUCCESS);
    HOLDS(made_with(3 * 40, 40, 1) == RAFKUDIN_SUCCESS);
    HOLDS(made_with(3 * 48, 48, 16) == RAFKUDIN_SUCCESS);
    HOLDS(made_with(3 * 56, 56, 1) == RAFKUDIN_SUCCESS);
    HOLDS(made_with(3 * 1000, 1000, 1) == RAFKUDIN_SUCCESS);
    HOLDS(made_with(3 * 48 - 1, 48, 1) == RAFKUDIN_INVALID_PARAMETER);
    HOLDS(made_with(3 * 48 + 40, 48, 1) == RAFKUDIN_INVALID_PARAMETER);
    HOLDS(made_with(39, 39, 1) == RAFKUDIN_INVALID_PARAMETER);
    HOLDS(made_with(32, 16, 1) == RAFKUDIN_INVALID_PARAMETER);
    HOLDS(made_with(0, 0, 1) == RAFKUDIN_INVALID_PARAMETER);
    HOLDS(made_with(48, 48, 0) == RAFKUDIN_INVALID_PARAMETER);
    HOLDS(made_with(48, 48, 4) == RAFKUDIN_INVALID_PARAMETER);
}

/* Makes a core of a range of pages and of one of 16 pages from page 16 on. */
static uint64_t made_of(uint32_t type, uint64_t first, uint64_t pages, uint64_t attribute)
{
    uint8_t records[2 * RAFKUDIN_DESCRIPTOR_SIZE];
    struct rafkudin *core;
    uint64_t status;

    put_record(records, type, first, pages);
    put_number(records + 32, 8, attribute);
    put_record(records + RAFKUDIN_DESCRIPTOR_SIZE, RAFKUDIN_LOADER_DATA, 16, 16);
    status = make(records, sizeof records, RAFKUDIN_DESCRIPTOR_SIZE, 1, &no_driver, 0, &core);
    if (core != NULL)
        RafkudinFree(core);
    return status;
}

static void try_descriptors(void)
{
    uint64_t runtime = RAFKUDIN_MEMORY_RUNTIME, last = 0x10000000000000;

    HOLDS(made_of(RAFKUDIN_CONVENTIONAL, 0, 16, 0xf) == RAFKUDIN_SUCCESS);
    HOLDS(made_of(RAFKUDIN_CONVENTIONAL, 32, last - 32, 0xf) == RAFKUDIN_SUCCESS);
    HOLDS(made_of(RAFKUDIN_CONVENTIONAL, 0, 17, 0xf) == RAFKUDIN_INVALID_PARAMETER);
    HOLDS(made_of(RAFKUDIN_CONVENTIONAL, 31, 1, 0xf) == RAFKUDIN_INVALID_PARAMETER);
    HOLDS(made_of(RAFKUDIN_CONVENTIONAL, 0, 0, 0xf) == RAFKUDIN_INVALID_PARAMETER);
    HOLDS(made_of(RAFKUDIN_CONVENTIONAL, 32, last - 31, 0xf) == RAFKUDIN_INVALID_PARAMETER);
    HOLDS(made_of(RAFKUDIN_CONVENTIONAL, 32, UINT64_MAX, 0xf) == RAFKUDIN_INVALID_PARAMETER);
    HOLDS(made_of(RAFKUDIN_CONVENTIONAL, 0, 1, runtime) == RAFKUDIN_INVALID_PARAMETER);
    HOLDS(made_of(RAFKUDIN_LOADER_CODE, 0, 1, runtime) == RAFKUDIN_SUCCESS);
    HOLDS(made_of(RAFKUDIN_UNACCEPTED, 0, 1, 0) == RAFKUDIN_SUCCESS);
    HOLDS(made_of(16, 0, 1, 0) == RAFKUDIN_INVALID_PARAMETER);
    HOLDS(made_of(0x6fffffff, 0, 1, 0) == RAFKUDIN_INVALID_PARAMETER);
    HOLDS(made_of(0x70000000, 0, 1, 0) == RAFKUDIN_SUCCESS);
    HOLDS(made_of(UINT32_MAX, 0, 1, 0) == RAFKUDIN_SUCCESS);
}

/* Makes a core with the given number of drivers, the first of which has these counts. */
static uint64_t made_by(size_t count, uint64_t needs, uint64_t opens, uint64_t children,
                        uint64_t interfaces)
{
    static struct rafkudin_driver drivers[65];
    uint8_t record[RAFKUDIN_DESCRIPTOR_SIZE];
    struct rafkudin *core;
    uint64_t status;

    memset(drivers, 0, sizeof drivers);
    drivers[0].needs_count = needs;
    drivers[0].opens_count = opens;
    drivers[0].children_count = children;
    drivers[0].children[7].count = interfaces;
    put_record(record, RAFKUDIN_CONVENTIONAL, 0, 1);
    status = make(record, sizeof record, sizeof record, 1, drivers, count, &core);
    if (core != NULL)
        RafkudinFree(core);
    return status;
}

static void try_drivers(void)
{
    HOLDS(made_by(64, 8, 8, 8, 4) == RAFKUDIN_SUCCESS);
    HOLDS(made_by(65, 0, 0, 0, 0) == RAFKUDIN_INVALID_PARAMETER);
    HOLDS(made_by(1, 9, 0, 0, 0) == RAFKUDIN_INVALID_PARAMETER);
    HOLDS(made_by(1, 0, 9, 0, 0) == RAFKUDIN_INVALID_PARAMETER);
    HOLDS(made_by(1, 0, 0, 9, 0) == RAFKUDIN_INVALID_PARAMETER);
    HOLDS(made_by(1, 0, 0, 8, 5) == RAFKUDIN_INVALID_PARAMETER);
    HOLDS(made_by(1, UINT64_MAX, 0, 0, 0) == RAFKUDIN_INVALID_PARAMETER);
}

/* The memory map by GetMemoryMap: null pointers, a buffer that is a byte too short, one that is
 * longer than the map. */
static void try_map(struct rafkudin *core)
{
    uint8_t map[2 * RAFKUDIN_DESCRIPTOR_SIZE];
    uint64_t size = 0, key = LEFT, step = 0, left = RafkudinCallsLeft(core);
    uint32_t version = 0;

    HOLDS(RafkudinGetMemoryMap(core, NULL, map, &key, &step, &version) ==
          RAFKUDIN_INVALID_PARAMETER);
    size = 48;
    HOLDS(RafkudinGetMemoryMap(core, &size, NULL, &key, &step, &version) ==
          RAFKUDIN_INVALID_PARAMETER);
    HOLDS(size == 48 && key == LEFT && step == 0 && RafkudinCallsLeft(core) == left);
    size = 0;
    HOLDS(RafkudinGetMemoryMap(core, &size, NULL, &key, &step, &version) ==
          RAFKUDIN_BUFFER_TOO_SMALL);
    HOLDS(size == 48 && key == LEFT && step == 48 && version == 1);
    HOLDS(RafkudinCallsLeft(core) == left - 1);
    memset(map, 0x5a, sizeof map);
    size = 47;
    HOLDS(RafkudinGetMemoryMap(core, &size, map, NULL, NULL, NULL) == RAFKUDIN_BUFFER_TOO_SMALL);
    HOLDS(size == 48 && map[0] == 0x5a && map[46] == 0x5a);
    size = sizeof map;
    HOLDS(RafkudinGetMemoryMap(core, &size, map, &key, &step, &version) == RAFKUDIN_SUCCESS);
    HOLDS(size == 48 && key == 1 && map[47] == 0 && map[48] == 0x5a && map[95] == 0x5a);
    size = 48;
    HOLDS(RafkudinGetMemoryMap(core, &size, map, NULL, NULL, NULL) == RAFKUDIN_SUCCESS &&
          size == 48);
}

/* The memory map without a call. */
static void try_entries(struct rafkudin *core)
{
    struct rafkudin_descriptor entry = {.attribute = LEFT};

    HOLDS(RafkudinDescriptors(core) == 1);
    HOLDS(RafkudinDescriptor(core, 1, &entry) == RAFKUDIN_NOT_FOUND && entry.attribute == LEFT);
    HOLDS(RafkudinDescriptor(core, SIZE_MAX, &entry) == RAFKUDIN_NOT_FOUND);
    HOLDS(RafkudinDescriptor(core, 0, &entry) == RAFKUDIN_SUCCESS);
    HOLDS(entry.type == RAFKUDIN_CONVENTIONAL && entry.physical_start == 4096);
    HOLDS(entry.number_of_pages == 256 && entry.attribute == 0xf);
}

/* What refused calls leave: their results, and one call fewer each. */
static void try_refusals(struct rafkudin *core)
{
    uint64_t one = LEFT, two = LEFT, left = RafkudinCallsLeft(core);
    struct rafkudin_guid guid = disk;
    uint8_t byte = 0x5a;

    HOLDS(RafkudinAllocatePages(core, 0, 4, 1000, &one) == RAFKUDIN_OUT_OF_RESOURCES &&
          one == LEFT);
    HOLDS(RafkudinAllocatePages(core, 3, 4, 1, &one) == RAFKUDIN_INVALID_PARAMETER && one == LEFT);
    HOLDS(RafkudinAllocatePool(core, 7, 1, &one) == RAFKUDIN_INVALID_PARAMETER && one == LEFT);
    HOLDS(RafkudinPoolRead(core, 0, &byte, 1) == RAFKUDIN_INVALID_PARAMETER && byte == 0x5a);
    one = 77;
    HOLDS(RafkudinInstallProtocolInterface(core, &one, &disk, 0, 0) == RAFKUDIN_INVALID_PARAMETER);
    HOLDS(one == 77 && RafkudinEvents(core, &two, 1) == 0 && two == LEFT);
    HOLDS(RafkudinLocateHandleBuffer(core, 0, &disk, 0, &one, &two) == RAFKUDIN_NOT_FOUND);
    HOLDS(RafkudinLocateProtocol(core, &disk, 0, &one) == RAFKUDIN_NOT_FOUND);
    HOLDS(RafkudinProtocolsPerHandle(core, 77, &guid, 1, &one) == RAFKUDIN_INVALID_PARAMETER);
    HOLDS(RafkudinOpenProtocol(core, 77, &disk, &one, 0, 0, 1) == RAFKUDIN_INVALID_PARAMETER);
    HOLDS(RafkudinOpenProtocolInformation(core, 77, &disk, &one, &two) == RAFKUDIN_NOT_FOUND);
    HOLDS(RafkudinHandleProtocol(core, 77, &disk, &one) == RAFKUDIN_INVALID_PARAMETER);
    HOLDS(RafkudinLocateDevicePath(core, &disk, &one, &two) == RAFKUDIN_INVALID_PARAMETER);
    HOLDS(one == 77 && two == LEFT && guid.bytes[0] == 1);
    HOLDS(RafkudinCallsLeft(core) == left - 12);
}

/* LocateHandle: null pointers, and sizes between those of numbers of handles. */
static void try_search(struct rafkudin *core)
{
    uint64_t size = 8, handle = LEFT, left = RafkudinCallsLeft(core);

    HOLDS(RafkudinLocateHandle(core, 0, NULL, 0, NULL, &handle) == RAFKUDIN_INVALID_PARAMETER);
    HOLDS(RafkudinLocateHandle(core, 0, NULL, 0, &size, NULL) == RAFKUDIN_INVALID_PARAMETER);
    HOLDS(RafkudinLocateHandle(core, 2, NULL, 0, &size, &handle) == RAFKUDIN_INVALID_PARAMETER);
    HOLDS(size == 8 && handle == LEFT && RafkudinCallsLeft(core) == left);
    size = 0;
    HOLDS(RafkudinLocateHandle(core, 0, NULL, 0, &size, NULL) == RAFKUDIN_BUFFER_TOO_SMALL &&
          size == 8);
    size = 7;
    HOLDS(RafkudinLocateHandle(core, 2, &disk, 0, &size, &handle) == RAFKUDIN_BUFFER_TOO_SMALL);
    HOLDS(size == 8 && handle == LEFT);
    size = 15;
    HOLDS(RafkudinLocateHandle(core, 2, &disk, 0, &size, &handle) == RAFKUDIN_SUCCESS);
    HOLDS(size == 8 && handle == 1);
    HOLDS(RafkudinLocateHandle(core, 2, &files, 0, &size, &handle) == RAFKUDIN_SUCCESS);
    HOLDS(RafkudinLocateHandle(core, 3, &files, 0, &size, &handle) == RAFKUDIN_INVALID_PARAMETER);
}

/* The GUIDs on handle 1: none where one too many would have no room. */
static void try_protocols(struct rafkudin *core)
{
    struct rafkudin_guid guids[3] = {files, disk, disk};
    uint64_t count = LEFT;

    HOLDS(RafkudinProtocolsPerHandle(core, 1, NULL, 0, &count) == RAFKUDIN_BUFFER_TOO_SMALL);
    HOLDS(count == 2 && RafkudinEvents(core, NULL, 0) == 0);
    HOLDS(RafkudinProtocolsPerHandle(core, 1, guids, 1, &count) == RAFKUDIN_BUFFER_TOO_SMALL);
    HOLDS(count == 2 && memcmp(&guids[0], &files, 16) == 0 && memcmp(&guids[1], &disk, 16) == 0);
    HOLDS(RafkudinProtocolsPerHandle(core, 1, guids, 3, &count) == RAFKUDIN_SUCCESS && count == 2);
    HOLDS(memcmp(&guids[0], &disk, 16) == 0 && memcmp(&guids[1], &files, 16) == 0);
    HOLDS(memcmp(&guids[2], &disk, 16) == 0);
}

/* ConnectController and DisconnectController with the standard's parameters. */
static void try_standard(struct rafkudin *core)
{
    uint64_t left = RafkudinCallsLeft(core);
    uint64_t drivers[18];

    for (size_t at = 0; at < 17; at++)
        drivers[at] = 1;
    drivers[17] = 0;
    HOLDS(RafkudinConnectController(core, 1, NULL, 8, true) == RAFKUDIN_UNSUPPORTED);
    HOLDS(RafkudinDisconnectController(core, 1, 0, 1) == RAFKUDIN_UNSUPPORTED);
    HOLDS(RafkudinCallsLeft(core) == left);
    HOLDS(RafkudinConnectController(core, 1, NULL, 0, true) == RAFKUDIN_NOT_FOUND);
    HOLDS(RafkudinConnectController(core, 1, drivers + 1, 0, true) == RAFKUDIN_NOT_FOUND);
    HOLDS(RafkudinConnectController(core, 1, drivers, 0, true) == RAFKUDIN_INVALID_PARAMETER);
    HOLDS(RafkudinDisconnectController(core, 1, 0, 0) == RAFKUDIN_SUCCESS);
    HOLDS(RafkudinCallsLeft(core) == left - 4);
}

/* What OpenProtocol and HandleProtocol give with a refusal, of a disk of value 0x10 on handle 1. */
static void try_opens(struct rafkudin *core)
{
    static const struct rafkudin_guid missing = {{3}};
    uint64_t value = LEFT;

    HOLDS(RafkudinOpenProtocol(core, 1, &disk, &value, 1, 1, RAFKUDIN_BY_DRIVER) ==
          RAFKUDIN_SUCCESS);
    HOLDS(value == 0x10);
    value = LEFT;
    HOLDS(RafkudinOpenProtocol(core, 1, &disk, &value, 1, 1, RAFKUDIN_BY_DRIVER) ==
          RAFKUDIN_ALREADY_STARTED);
    HOLDS(value == 0x10);
    HOLDS(RafkudinCloseProtocol(core, 1, &disk, 1, 1) == RAFKUDIN_SUCCESS);
    value = LEFT;
    HOLDS(RafkudinOpenProtocol(core, 1, &missing, &value, 0, 0, RAFKUDIN_TEST_PROTOCOL) ==
              RAFKUDIN_UNSUPPORTED &&
          value == LEFT);
    HOLDS(RafkudinOpenProtocol(core, 1, &missing, &value, 1, 0, RAFKUDIN_GET_PROTOCOL) ==
              RAFKUDIN_UNSUPPORTED &&
          value == 0);
    value = LEFT;
    HOLDS(RafkudinHandleProtocol(core, 1, &missing, &value) == RAFKUDIN_UNSUPPORTED && value == 0);
}

/* A handle with two interfaces, their events, and their GUIDs in buffers of all lengths. */
static void try_handles(struct rafkudin *core)
{
    struct rafkudin_interface both[2] = {{disk, 0x10}, {files, 0x20}};
    uint64_t handle = 0, events[3] = {LEFT, LEFT, LEFT}, value = LEFT;

    HOLDS(RafkudinRegisterProtocolNotify(core, &disk, 7, &value) == RAFKUDIN_SUCCESS && value == 1);
    HOLDS(RafkudinRegisterProtocolNotify(core, &files, 9, &value) == RAFKUDIN_SUCCESS &&
          value == 2);
    HOLDS(RafkudinInstallMultipleProtocolInterfaces(core, &handle, both, 2) == RAFKUDIN_SUCCESS);
    HOLDS(handle == 1 && RafkudinEvents(core, events, 0) == 2 && events[0] == LEFT);
    HOLDS(RafkudinEvents(core, events, 1) == 2 && events[0] == 7 && events[1] == LEFT);
    HOLDS(RafkudinEvents(core, events, 3) == 2 && events[1] == 9 && events[2] == LEFT);
    try_protocols(core);
    value = LEFT;
    HOLDS(RafkudinOpenProtocol(core, 1, &disk, &value, 0, 0, RAFKUDIN_TEST_PROTOCOL) ==
          RAFKUDIN_SUCCESS);
    HOLDS(value == LEFT);
    HOLDS(RafkudinConnectDrivers(core, 1, NULL, 0, true) == RAFKUDIN_NOT_FOUND);
    try_opens(core);
    try_standard(core);
    try_search(core);
}

/* All of some interfaces of a handle go or none, in a call that may be refused at each of them. */
static void try_uninstalls(void)
{
    static const struct rafkudin_guid third = {{3}};
    struct rafkudin_interface all[3] = {{disk, 0x10}, {files, 0x20}, {third, 0x30}}, many[17];
    struct rafkudin_interface wrong[3] = {{disk, 0x10}, {files, 0x21}, {third, 0x30}};
    struct rafkudin_interface twice[2] = {{disk, 0x10}, {disk, 0x10}};
    struct rafkudin *core = make_core();
    uint64_t handle = 0, left, value = LEFT, count = 0;
    struct rafkudin_guid order[3];
    struct rafkudin_item item;

    HOLDS(RafkudinInstallMultipleProtocolInterfaces(core, &handle, all, 3) == RAFKUDIN_SUCCESS);
    HOLDS(RafkudinOpenProtocol(core, handle, &disk, &value, handle, 0, RAFKUDIN_GET_PROTOCOL) ==
          RAFKUDIN_SUCCESS);
    HOLDS(RafkudinOpenProtocol(core, handle, &third, &value, handle, 0, RAFKUDIN_EXCLUSIVE) ==
          RAFKUDIN_SUCCESS);
    for (size_t i = 0; i < 17; i++)
        many[i] = all[0];
    left = RafkudinCallsLeft(core);
    HOLDS(RafkudinUninstallMultipleProtocolInterfaces(core, handle, all, 3) ==
          RAFKUDIN_INVALID_PARAMETER);
    HOLDS(RafkudinUninstallMultipleProtocolInterfaces(core, handle, wrong, 2) ==
          RAFKUDIN_INVALID_PARAMETER);
    HOLDS(RafkudinUninstallMultipleProtocolInterfaces(core, handle, twice, 2) ==
          RAFKUDIN_INVALID_PARAMETER);
    HOLDS(RafkudinUninstallMultipleProtocolInterfaces(core, handle, many, 17) ==
          RAFKUDIN_INVALID_PARAMETER);
    HOLDS(RafkudinUninstallMultipleProtocolInterfaces(core, handle + 1, all, 1) ==
          RAFKUDIN_INVALID_PARAMETER);
    HOLDS(RafkudinUninstallMultipleProtocolInterfaces(core, handle, NULL, 0) == RAFKUDIN_SUCCESS);
    HOLDS(RafkudinCallsLeft(core) == left - 6);
    HOLDS(RafkudinProtocolsPerHandle(core, handle, order, 3, &count) == RAFKUDIN_SUCCESS);
    for (size_t i = 0; i < 3; i++)
        HOLDS(memcmp(&order[i], &all[i].guid, sizeof order[i]) == 0);
    HOLDS(RafkudinOpenItem(core, handle, &disk, 0, &item) == RAFKUDIN_SUCCESS);
    HOLDS(RafkudinUninstallMultipleProtocolInterfaces(core, handle, all, 2) == RAFKUDIN_SUCCESS);
    HOLDS(RafkudinOpenItem(core, handle, &disk, 0, &item) == RAFKUDIN_NOT_FOUND);
    HOLDS(RafkudinHandleProtocol(core, handle, &third, &value) == RAFKUDIN_SUCCESS &&
          value == 0x30);
    HOLDS(RafkudinCloseProtocol(core, handle, &third, handle, 0) == RAFKUDIN_SUCCESS);
    HOLDS(RafkudinUninstallMultipleProtocolInterfaces(core, handle, all + 2, 1) ==
          RAFKUDIN_SUCCESS);
    HOLDS(RafkudinHandle(core, 0, &handle) == RAFKUDIN_NOT_FOUND);
    RafkudinFree(core);
}

/* The pool's bytes, empty ranges among them. */
static void try_pool(struct rafkudin *core)
{
    uint8_t bytes[24] = {1, 2, 3}, other[24];
    uint64_t block = 0;

    HOLDS(RafkudinAllocatePool(core, RAFKUDIN_LOADER_DATA, 24, &block) == RAFKUDIN_SUCCESS);
    HOLDS(block % 32 == 8);
    HOLDS(RafkudinPoolWrite(core, block, bytes, 24) == RAFKUDIN_SUCCESS);
    HOLDS(RafkudinPoolRead(core, block, other, 24) == RAFKUDIN_SUCCESS &&
          memcmp(bytes, other, 24) == 0);
    HOLDS(RafkudinPoolRead(core, block + 24, other, 0) == RAFKUDIN_SUCCESS);
    HOLDS(RafkudinPoolWrite(core, block + 24, bytes, 0) == RAFKUDIN_SUCCESS);
    HOLDS(RafkudinPoolRead(core, block + 1, other, 24) == RAFKUDIN_INVALID_PARAMETER &&
          other[0] == 1);
    HOLDS(RafkudinPoolWrite(core, block - 1, bytes, 0) == RAFKUDIN_INVALID_PARAMETER);
    HOLDS(RafkudinFreePool(core, block) == RAFKUDIN_SUCCESS);
    HOLDS(RafkudinFreePool(core, block) == RAFKUDIN_INVALID_PARAMETER);
}

/* A certificate: when there is one, room that is a byte too short, and its check. */
static void try_certificates(struct rafkudin *core)
{
    uint8_t text[4096];
    uint64_t address = 0, length = LEFT, line = LEFT;

    HOLDS(RafkudinAllocatePages(core, 0, 4, 1, &address) == RAFKUDIN_SUCCESS);
    HOLDS(RafkudinCertificate(core, text, sizeof text, &length) == RAFKUDIN_NOT_FOUND);
    RafkudinCertify(core, true);
    HOLDS(RafkudinCertificate(core, text, sizeof text, &length) == RAFKUDIN_NOT_FOUND);
    HOLDS(RafkudinAllocatePages(core, 0, 4, 1, &address) == RAFKUDIN_SUCCESS && length == LEFT);
    HOLDS(RafkudinCertificate(core, text, 0, &length) == RAFKUDIN_BUFFER_TOO_SMALL);
    HOLDS(length < sizeof text);
    if (length >= sizeof text)
        return;
    memset(text, 0x5a, sizeof text);
    HOLDS(RafkudinCertificate(core, text, length - 1, &length) == RAFKUDIN_BUFFER_TOO_SMALL);
    HOLDS(text[0] == 0x5a);
    HOLDS(RafkudinCertificate(core, text, length, &length) == RAFKUDIN_SUCCESS);
    HOLDS(text[length - 1] == '\n' && text[length] == 0x5a);
    HOLDS(RafkudinCheck(text, length, &line) == RAFKUDIN_SUCCESS && line == LEFT);
    text[length - 6] = text[length - 6] == '1' ? '2' : '1'; /* the last digit of the answer */
    HOLDS(RafkudinCheck(text, length, &line) == RAFKUDIN_ACCESS_DENIED && line == LEFT);
    HOLDS(RafkudinCheck(text, 0, &line) == RAFKUDIN_INVALID_PARAMETER && line == 1);
    HOLDS(RafkudinAllocatePages(core, 2, 4, 1, &address) == RAFKUDIN_NOT_FOUND);
    HOLDS(RafkudinCertificate(core, text, sizeof text, &length) == RAFKUDIN_NOT_FOUND);
    RafkudinCertify(core, false);
    HOLDS(RafkudinAllocatePages(core, 0, 4, 1, &address) == RAFKUDIN_SUCCESS);
    HOLDS(RafkudinCertificate(core, text, sizeof text, &length) == RAFKUDIN_NOT_FOUND);
}

/* What calls with replies leave, each of which is served with replies kept or without them. */
static void call_each(struct rafkudin *core, bool records, uint64_t *handle)
{
    static const struct rafkudin_guid guid = {{0x51}};
    uint64_t address = 0, value = 0, key = 0, length = 0, events[1] = {0};
    uint8_t text[256];
    const uint64_t left = records ? RAFKUDIN_SUCCESS : RAFKUDIN_NOT_FOUND;

    RafkudinRecord(core, records);
#define LEAVES(call)                                                                              \
    HOLDS((call) == RAFKUDIN_SUCCESS);                                                            \
    HOLDS(RafkudinReplyLine(core, 1, text, sizeof text, &length) == left)
    LEAVES(RafkudinAllocatePages(core, 0, 4, 1, &address));
    HOLDS(address != 0 && RafkudinEvents(core, events, 1) == 0);
    LEAVES(RafkudinFreePages(core, address, 1));
    LEAVES(RafkudinAllocatePool(core, 4, 24, &address));
    LEAVES(RafkudinPoolWrite(core, address, text, 8));
    LEAVES(RafkudinFreePool(core, address));
    LEAVES(RafkudinRegisterProtocolNotify(core, &guid, 3, &key));
    LEAVES(RafkudinInstallProtocolInterface(core, handle, &guid, 0, 5));
    HOLDS(RafkudinEvents(core, events, 1) > 0 && events[0] == 3);
    LEAVES(RafkudinHandleProtocol(core, *handle, &guid, &value));
    HOLDS(value == 5 && RafkudinEvents(core, events, 1) == 0);
    LEAVES(RafkudinLocateProtocol(core, &guid, 0, &value));
    LEAVES(RafkudinOpenProtocol(core, *handle, &guid, &value, *handle, 0, 1));
    LEAVES(RafkudinCloseProtocol(core, *handle, &guid, *handle, 0));
    LEAVES(RafkudinUninstallProtocolInterface(core, *handle, &guid, 5));
    HOLDS(RafkudinHandleProtocol(core, *handle, &guid, &value) == RAFKUDIN_INVALID_PARAMETER);
    HOLDS(RafkudinReplyLine(core, 1, text, sizeof text, &length) == left);
#undef LEAVES
}

/* A reply is left where replies are kept, and events are left in any case. */
static void try_records(struct rafkudin *core)
{
    uint64_t first = 0, second = 0;

    call_each(core, false, &first);
    call_each(core, true, &second);
    RafkudinRecord(core, false);
    HOLDS(second > first);
}

/* The end: what is refused then, and what is not. */
static void try_exit(struct rafkudin *core)
{
    uint64_t size = 0, key = 0, handle = 0;
    uint8_t map[16 * RAFKUDIN_DESCRIPTOR_SIZE];

    size = sizeof map;
    HOLDS(RafkudinGetMemoryMap(core, &size, map, &key, NULL, NULL) == RAFKUDIN_SUCCESS);
    HOLDS(RafkudinExitBootServices(core, 1, key + 1) == RAFKUDIN_INVALID_PARAMETER);
    HOLDS(RafkudinExitBootServices(core, 1, key) == RAFKUDIN_SUCCESS);
    HOLDS(RafkudinExitBootServices(core, 1, key) == RAFKUDIN_UNSUPPORTED);
    HOLDS(RafkudinFreePages(core, 1, 0) == RAFKUDIN_UNSUPPORTED);
    HOLDS(RafkudinLocateHandle(core, 9, NULL, 0, &handle, NULL) == RAFKUDIN_UNSUPPORTED &&
          handle == 0);
    HOLDS(RafkudinDescriptors(core) == size / RAFKUDIN_DESCRIPTOR_SIZE);
}

/* Fills a core of its own and frees all again. */
static int run_thread(void *unused)
{
    struct rafkudin *core = make_core();
    uint64_t address[200];

    (void)unused;
    for (int round = 0; round < 20; round++) {
        for (int at = 0; at < 200; at++) {
            address[at] = 0;
            HOLDS(RafkudinAllocatePages(core, 0, 1 + (uint32_t)at % 6, 1, &address[at]) ==
                  RAFKUDIN_SUCCESS);
        }
        for (int at = 0; at < 200; at++)
            HOLDS(RafkudinFreePages(core, address[at], 1) == RAFKUDIN_SUCCESS);
    }
    HOLDS(RafkudinDescriptors(core) == 1);
    RafkudinFree(core);
    return 0;
}

static void try_threads(void)
{
    thrd_t threads[2];

    for (int at = 0; at < 2; at++)
        if (thrd_create(&threads[at], run_thread, NULL) != thrd_success)
            abort();
    for (int at = 0; at < 2; at++)
        HOLDS(thrd_join(threads[at], NULL) == thrd_success);
}

int main(void)
{
    struct rafkudin *core = make_core();

    try_sizes();
    try_descriptors();
    try_drivers();
    try_map(core);
    try_entries(core);
    try_refusals(core);
    try_handles(core);
    try_uninstalls();
    try_pool(core);
    try_certificates(core);
    try_records(core);
    try_exit(core);
    RafkudinFree(core);
    try_threads();
    return points_end("borders");
}
