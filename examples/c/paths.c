/* Device paths in this program's memory, well-formed and not: RafkudinLocatePath against
 * LocateDevicePath of the same bytes in a block of the pool, and RafkudinInstallPath. Each point that
 * is not as said is printed on standard error, and then the status is 1. */
#include "machine.h"
#include "points.h"

#include <stdlib.h>
#include <string.h>

/* What a variable holds before a call that must leave it. */
#define LEFT 0x5a5a5a5a5a5a5a5aU

static const struct rafkudin_guid disk = {{1}};
static const struct rafkudin_guid device_path = {{0x91, 0x6e, 0x57, 0x09, 0x3f, 0x6d, 0xd2, 0x11, 0x8e,
                                                  0x39, 0x00, 0xa0, 0xc9, 0x69, 0x72, 0x3b}};

/* PciRoot(0x0)/Pci(0x1F,0x2)/Sata(0x0,0xFFFF,0x0)/HD(1,..)/\EFI, as a firmware has it. */
#define ROOT 0x02, 0x01, 0x0c, 0, 0xd0, 0x41, 0x03, 0x0a, 0, 0, 0, 0
#define PCI 0x01, 0x01, 0x06, 0, 0x02, 0x1f
#define SATA 0x03, 0x12, 0x0a, 0, 0, 0, 0xff, 0xff, 0, 0
#define FILE_NODE 0x04, 0x04, 0x0e, 0, '\\', 0, 'E', 0, 'F', 0, 'I', 0, 0, 0
#define END_OF_INSTANCE 0x7f, 0x01, 4, 0
#define END 0x7f, 0xff, 4, 0

static const uint8_t controller[] = {ROOT, PCI, END};
static const uint8_t port[] = {ROOT, PCI, SATA, END};
static const uint8_t file[] = {ROOT, PCI, SATA, FILE_NODE, END};

static struct rafkudin *make_core(void)
{
    uint8_t record[RAFKUDIN_DESCRIPTOR_SIZE] = {RAFKUDIN_CONVENTIONAL};
    struct rafkudin *core = NULL;

    put_number(record + 8, 8, 4096);
    put_number(record + 24, 8, 256);
    if (RafkudinMake(record, sizeof record, sizeof record, 1, NULL, 0, &core) != RAFKUDIN_SUCCESS)
        abort();
    return core;
}

/* Installs a path and the disk's GUID on a handle of its own, over bytes that are changed at once. */
static uint64_t install(struct rafkudin *core, const uint8_t *path, size_t length)
{
    uint64_t handle = 0, address = 0, value = 0;
    uint8_t copy[256], kept[256];

    memcpy(copy, path, length);
    HOLDS(RafkudinInstallPath(core, &handle, copy, length, &address) == RAFKUDIN_SUCCESS);
    memset(copy, 0xff, length);
    HOLDS(RafkudinHandleProtocol(core, handle, &device_path, &value) == RAFKUDIN_SUCCESS);
    HOLDS(value == address);
    HOLDS(RafkudinPoolRead(core, address, kept, length) == RAFKUDIN_SUCCESS);
    HOLDS(memcmp(kept, path, length) == 0);
    HOLDS(RafkudinPoolRead(core, address, kept, length + 1) == RAFKUDIN_INVALID_PARAMETER);
    HOLDS(RafkudinInstallProtocolInterface(core, &handle, &disk, 0, 0) == RAFKUDIN_SUCCESS);
    return handle;
}

/* What is found of a path here is what is found of its bytes in a block of the pool. */
static uint64_t try_path(struct rafkudin *core, const uint8_t *path, size_t length)
{
    uint64_t block = 0, behind, device = LEFT, found = LEFT, matched = LEFT, status;

    HOLDS(RafkudinAllocatePool(core, 4, length, &block) == RAFKUDIN_SUCCESS);
    HOLDS(RafkudinPoolWrite(core, block, path, length) == RAFKUDIN_SUCCESS);
    behind = block;
    status = RafkudinLocateDevicePath(core, &disk, &behind, &device);
    HOLDS(RafkudinLocatePath(core, &disk, path, length, &matched, &found) == status);
    HOLDS(found == device);
    HOLDS(status == RAFKUDIN_SUCCESS ? matched == behind - block : matched == LEFT);
    HOLDS(RafkudinFreePool(core, block) == RAFKUDIN_SUCCESS);
    return status;
}

static void try_located(struct rafkudin *core, uint64_t of_controller, uint64_t of_port)
{
    static const uint8_t instances[] = {ROOT, PCI, END_OF_INSTANCE, ROOT, PCI, SATA, END};
    static const uint8_t other[] = {PCI, END};
    uint64_t matched = LEFT, device = LEFT;

    HOLDS(RafkudinLocatePath(core, &disk, file, sizeof file, &matched, &device) == RAFKUDIN_SUCCESS);
    HOLDS(device == of_port && matched == sizeof port - 4);
    HOLDS(RafkudinLocatePath(core, &disk, instances, sizeof instances, &matched, &device) ==
          RAFKUDIN_SUCCESS);
    HOLDS(device == of_controller && matched == sizeof controller - 4);
    matched = device = LEFT;
    HOLDS(RafkudinLocatePath(core, &disk, other, sizeof other, &matched, &device) ==
          RAFKUDIN_NOT_FOUND);
    HOLDS(matched == LEFT && device == LEFT);
    HOLDS(try_path(core, file, sizeof file) == RAFKUDIN_SUCCESS);
    HOLDS(try_path(core, instances, sizeof instances) == RAFKUDIN_SUCCESS);
    HOLDS(try_path(core, other, sizeof other) == RAFKUDIN_NOT_FOUND);
}

/* Bytes that are no path: all fronts of one, a node of three bytes, an end of another subtype. */
static void try_no_paths(struct rafkudin *core)
{
    static const uint8_t short_node[] = {0x01, 0x01, 3, 0, END};
    static const uint8_t other_end[] = {0x7f, 0x02, 4, 0, END};
    uint64_t handle = 0, address = LEFT, left = RafkudinCallsLeft(core);

    for (size_t length = 0; length < sizeof file; length++) {
        HOLDS(RafkudinInstallPath(core, &handle, file, length, &address) ==
              RAFKUDIN_INVALID_PARAMETER);
    }
    HOLDS(RafkudinInstallPath(core, &handle, short_node, sizeof short_node, &address) ==
          RAFKUDIN_INVALID_PARAMETER);
    HOLDS(RafkudinInstallPath(core, &handle, other_end, sizeof other_end, &address) ==
          RAFKUDIN_INVALID_PARAMETER);
    HOLDS(handle == 0 && address == LEFT && RafkudinCallsLeft(core) == left);
    for (size_t length = 0; length < sizeof file; length++)
        HOLDS(try_path(core, file, length) == RAFKUDIN_INVALID_PARAMETER);
    HOLDS(try_path(core, short_node, sizeof short_node) == RAFKUDIN_INVALID_PARAMETER);
    HOLDS(try_path(core, other_end, sizeof other_end) == RAFKUDIN_INVALID_PARAMETER);
}

/* A refused installation leaves no block and no handle: four calls, the last of which gives the block
 * back, and the same memory map. */
static void try_refused(struct rafkudin *core)
{
    static const uint8_t bus[] = {ROOT, END};
    uint64_t handle = 0, address = LEFT, left = RafkudinCallsLeft(core), handles = 0;
    size_t entries = RafkudinDescriptors(core);

    HOLDS(RafkudinInstallPath(core, &handle, port, sizeof port, &address) ==
          RAFKUDIN_ALREADY_STARTED);
    HOLDS(handle == 0 && address == LEFT && RafkudinCallsLeft(core) == left - 4);
    handle = 77;
    HOLDS(RafkudinInstallPath(core, &handle, bus, sizeof bus, &address) ==
          RAFKUDIN_INVALID_PARAMETER);
    HOLDS(handle == 77 && address == LEFT && RafkudinCallsLeft(core) == left - 8);
    HOLDS(RafkudinDescriptors(core) == entries);
    HOLDS(RafkudinLocateHandleInto(core, 0, NULL, 0, &handles, NULL, 0) ==
          RAFKUDIN_BUFFER_TOO_SMALL);
    HOLDS(handles == 2 * 8);
}

/* Drawn bytes, most of them nodes of the paths above, in any order and cut anywhere. */
static void try_drawn(struct rafkudin *core)
{
    static const uint8_t pieces[] = {ROOT, PCI, SATA, FILE_NODE, END_OF_INSTANCE, END, 0x04, 0x01, 5, 0, 9};
    static const size_t starts[] = {0, 12, 18, 28, 42, 46, 50, sizeof pieces};
    uint32_t drawn = 1;
    unsigned found = 0;

    for (unsigned round = 0; round < 4000; round++) {
        uint8_t path[128];
        size_t length = 0;

        for (unsigned i = 0; i < 6; i++) {
            drawn = drawn * 1664525 + 1013904223;
            unsigned piece = i < 3 && drawn >> 30 != 0 ? i : (drawn >> 16) % 7;
            size_t size = starts[piece + 1] - starts[piece];

            memcpy(path + length, pieces + starts[piece], size);
            length += size;
        }
        if (drawn >> 29 == 0)
            length -= (drawn >> 8) % (length + 1);
        if (drawn >> 28 == 5)
            path[(drawn >> 8) % length] ^= 1U << (drawn >> 4) % 8;
        found += try_path(core, path, length) == RAFKUDIN_SUCCESS;
    }
    HOLDS(found >= 500 && found <= 3500);
}

/* Calls one after the other up to the last ones, and the end of the boot services. */
static void try_end(struct rafkudin *core)
{
    uint64_t address = LEFT, handle = 0, matched = LEFT, device = LEFT, size = 0, key = 0;
    static const uint8_t bus[] = {ROOT, END};
    static uint8_t map[4096];

    size = sizeof map;
    HOLDS(RafkudinGetMemoryMap(core, &size, map, &key, NULL, NULL) == RAFKUDIN_SUCCESS);
    HOLDS(RafkudinExitBootServices(core, 0, key) == RAFKUDIN_SUCCESS);
    HOLDS(RafkudinLocatePath(core, &disk, file, sizeof file, &matched, &device) ==
          RAFKUDIN_UNSUPPORTED);
    HOLDS(RafkudinInstallPath(core, &handle, bus, sizeof bus, &address) == RAFKUDIN_UNSUPPORTED);
    HOLDS(matched == LEFT && device == LEFT && handle == 0 && address == LEFT);
}

int main(void)
{
    struct rafkudin *core = make_core();
    uint64_t of_controller = install(core, controller, sizeof controller);
    uint64_t of_port = install(core, port, sizeof port);

    try_located(core, of_controller, of_port);
    try_no_paths(core);
    try_refused(core);
    try_drawn(core);
    try_end(core);
    RafkudinFree(core);
    return points_end("paths");
}
