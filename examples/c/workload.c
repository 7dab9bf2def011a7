/* Calls of all kinds on a core of their own, with a digest of all that they answer. It needs no C
 * library but memset. */
#include "workload.h"

#include <string.h>

#define BLOCKS 24

static const struct rafkudin_guid bus = {{1}}, disk = {{2}}, files = {{3}};

/* EFI_DRIVER_BINDING_PROTOCOL_GUID and EFI_DEVICE_PATH_PROTOCOL_GUID. */
static const struct rafkudin_guid binding = {{0xab, 0x31, 0xa0, 0x18, 0x43, 0xb4, 0x1a, 0x4d, 0xa5,
                                              0xc0, 0x0c, 0x09, 0x26, 0x1e, 0x9f, 0x71}};
static const struct rafkudin_guid device_path = {{0x91, 0x6e, 0x57, 0x09, 0x3f, 0x6d, 0xd2, 0x11,
                                                  0x8e, 0x39, 0x00, 0xa0, 0xc9, 0x69, 0x72, 0x3b}};

static uint64_t digest;

/* Takes a number into the digest, and gives it back. */
static uint64_t seen(uint64_t number)
{
    digest = (digest ^ number) * 0x100000001b3u + (digest >> 29);
    return number;
}

static void see_bytes(const uint8_t *bytes, uint64_t count)
{
    for (uint64_t at = 0; at < count; at++)
        seen(bytes[at]);
}

static void put(uint8_t *bytes, unsigned count, uint64_t number)
{
    for (unsigned at = 0; at < count; at++)
        bytes[at] = (uint8_t)(number >> 8 * at);
}

/* A core of a small machine with a bus driver, whose child is a disk, and a driver of files. */
static struct rafkudin *make_core(uint8_t *records, size_t size)
{
    static struct rafkudin_driver drivers[2];
    struct rafkudin *core = NULL;

    memset(drivers, 0, sizeof drivers);
    drivers[0].version = 2;
    drivers[0].stops = true;
    drivers[0].needs_count = drivers[0].opens_count = drivers[0].children_count = 1;
    drivers[0].needs[0] = drivers[0].opens[0] = bus;
    drivers[0].children[0].count = 1;
    drivers[0].children[0].interfaces[0].guid = disk;
    drivers[1].version = 1;
    drivers[1].stops = true;
    drivers[1].needs_count = drivers[1].opens_count = 1;
    drivers[1].needs[0] = drivers[1].opens[0] = disk;
    seen(RafkudinMake(records, size, RAFKUDIN_DESCRIPTOR_SIZE, 16, drivers, 2, &core));
    return core;
}

/* Pages in all three ways, their certificates and their checks. */
static void use_pages(struct rafkudin *core)
{
    static uint8_t text[8192];
    uint64_t addresses[BLOCKS], length = 0, line = 0;

    RafkudinCertify(core, true);
    for (uint32_t at = 0; at < BLOCKS; at++) {
        addresses[at] = 0x7fffff;
        seen(RafkudinAllocatePages(core, at % 2, 1 + at % 6, 1 + at % 5, &addresses[at]));
        seen(addresses[at]);
    }
    seen(RafkudinCertificate(core, text, sizeof text, &length));
    see_bytes(text, seen(length));
    seen(RafkudinCheck(text, length, &line));
    RafkudinCertify(core, false);
    for (uint32_t at = 0; at < BLOCKS; at += 2)
        seen(RafkudinFreePages(core, addresses[at], 1 + at % 5));
    seen(RafkudinAllocatePages(core, RAFKUDIN_AT_ADDRESS, 4, 1, &addresses[0]));
}

static void use_pool(struct rafkudin *core)
{
    uint64_t blocks[BLOCKS];
    uint8_t bytes[40] = {0};

    for (uint32_t at = 0; at < BLOCKS; at++) {
        blocks[at] = 0;
        seen(RafkudinAllocatePool(core, 3 + at % 3, 17 * at, &blocks[at]));
        seen(blocks[at]);
    }
    seen(RafkudinPoolWrite(core, blocks[5], (const uint8_t *)"rafkudin", 8));
    seen(RafkudinPoolRead(core, blocks[5], bytes, sizeof bytes));
    see_bytes(bytes, sizeof bytes);
    for (uint32_t at = 0; at < BLOCKS; at += 3)
        seen(RafkudinFreePool(core, blocks[at]));
}

/* Handles, registrations, device paths, and drivers that are started and stopped. */
static void use_handles(struct rafkudin *core)
{
    static const uint8_t path[8] = {1, 1, 4, 0, 0x7f, 0xff, 4, 0};
    uint64_t handle = 0, driver = 0, other = 0, key = 0, count = 0, address = 0, found[8] = {0};
    struct rafkudin_guid guids[4];
    struct rafkudin_interface both[2] = {{bus, 1}, {device_path, 0}};

    seen(RafkudinAllocatePool(core, 4, sizeof path, &both[1].value));
    seen(RafkudinPoolWrite(core, both[1].value, path, sizeof path));
    seen(RafkudinRegisterProtocolNotify(core, &disk, 77, &key));
    seen(RafkudinInstallMultipleProtocolInterfaces(core, &handle, both, 2));
    for (uint64_t at = 0; at < 2; at++, driver = 0)
        seen(RafkudinInstallProtocolInterface(core, &driver, &binding, 0, at));
    seen(RafkudinConnectController(core, handle, NULL, 0, true));
    count = RafkudinEvents(core, found, 8);
    see_bytes((const uint8_t *)found, seen(count) * 8);
    count = sizeof found;
    seen(RafkudinLocateHandle(core, RAFKUDIN_ALL_HANDLES, NULL, 0, &count, found));
    see_bytes((const uint8_t *)found, seen(count));
    seen(RafkudinLocateHandleBuffer(core, RAFKUDIN_BY_PROTOCOL, &disk, 0, &count, &address));
    seen(RafkudinOpenProtocolInformation(core, handle, &bus, &other, &count));
    seen(RafkudinLocateProtocol(core, &disk, key, &address));
    seen(RafkudinProtocolsPerHandle(core, handle, guids, 4, &count));
    seen(RafkudinOpenProtocol(core, handle, &device_path, &other, 2, 0, RAFKUDIN_EXCLUSIVE));
    seen(RafkudinCloseProtocol(core, handle, &device_path, 2, 0));
    address = both[1].value;
    seen(RafkudinLocateDevicePath(core, &bus, &address, &other));
    seen(RafkudinReinstallProtocolInterface(core, handle, &bus, 1, 2));
    seen(RafkudinDisconnectController(core, handle, 0, 0));
    seen(RafkudinInstallProtocolInterface(core, &handle, &files, 0, 9));
    seen(RafkudinUninstallProtocolInterface(core, handle, &files, 9));
    both[0].guid = files;
    both[1].guid = disk;
    other = 0;
    seen(RafkudinInstallMultipleProtocolInterfaces(core, &other, both, 2));
    seen(RafkudinUninstallMultipleProtocolInterfaces(core, other, both, 2));
}

uint64_t run_workload(void)
{
    uint8_t records[4 * RAFKUDIN_DESCRIPTOR_SIZE] = {0}, map[64 * RAFKUDIN_DESCRIPTOR_SIZE];
    uint64_t size = sizeof map, key = 0, address = 0;
    struct rafkudin *core;

    digest = 0;
    for (unsigned at = 0; at < 4; at++) {
        uint8_t *record = records + at * RAFKUDIN_DESCRIPTOR_SIZE;

        put(record, 4, at == 2 ? RAFKUDIN_BOOT_SERVICES_DATA : RAFKUDIN_CONVENTIONAL);
        put(record + 8, 8, at << 21);
        put(record + 24, 8, at == 1 ? 300 : 512);
        put(record + 32, 8, 0xf);
    }
    seen(RafkudinPlace(records, sizeof records, RAFKUDIN_DESCRIPTOR_SIZE, 16, 6, 20, 0x5fffff,
                       &address));
    seen(address);
    core = make_core(records, sizeof records);
    if (core == NULL)
        return 0;
    use_pages(core);
    use_pool(core);
    use_handles(core);
    seen(RafkudinGetMemoryMap(core, &size, map, &key, NULL, NULL));
    see_bytes(map, seen(size));
    seen(RafkudinExitBootServices(core, 0, seen(key)));
    RafkudinFree(core);
    return digest;
}
