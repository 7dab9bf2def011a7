/* Makes the last calls that a core serves, and then one of each service: rafkudin.h says that it
 * returns ABORTED and changes nothing. Nobody makes 2^62 - 1 calls, so the number of calls left is
 * found in the core's memory and written over, as no caller may. Each point that does not hold is
 * printed on standard error, and then the status is 1. */
#include "points.h"
#include "small_core.h"

#include <string.h>

/* What a variable holds before a call that must leave it. */
#define LEFT 0x5a5a5a5a5a5a5a5aU

#define ALL_CALLS (((uint64_t)1 << 62) - 1)

/* How many calls the core serves. */
#define CALLS 1000

/* How many numbers of 64 bits a core has at least. */
#define NUMBERS 96

static const struct rafkudin_guid disk = {{1}};

/* Two pages, a block of the pool and a handle, each of a call. */
struct served {
    uint64_t memory, block, handle;
};

/* Each call uses one up, a refused one too. */
static void count_calls(void)
{
    struct rafkudin *core = core_of_pages(1, 256, NULL, 0);
    uint64_t memory = LEFT;

    HOLDS(RafkudinCallsLeft(core) == ALL_CALLS);
    HOLDS(RafkudinAllocatePages(core, RAFKUDIN_ANY_PAGES, 4, 2, &memory) == RAFKUDIN_SUCCESS);
    HOLDS(RafkudinCallsLeft(core) == ALL_CALLS - 1);
    HOLDS(RafkudinFreePages(core, 0, 1) != RAFKUDIN_SUCCESS);
    HOLDS(RafkudinCallsLeft(core) == ALL_CALLS - 2);
    RafkudinFree(core);
}

/* Leaves a core a number of calls: where its memory has the number that it says is left. Its pointer
 * leads to one to this memory. */
static void leave_calls(struct rafkudin *core, uint64_t calls)
{
    uint64_t left = RafkudinCallsLeft(core), *numbers;
    size_t at = 0;

    memcpy(&numbers, core, sizeof numbers);
    while (at < NUMBERS && numbers[at] != left)
        at++;
    HOLDS(left == ALL_CALLS && at < NUMBERS);
    if (at < NUMBERS)
        numbers[at] = calls;
    HOLDS(RafkudinCallsLeft(core) == calls);
}

/* Makes all calls up to the last; all but four of them are refused reads of the pool. */
static struct served serve(struct rafkudin *core)
{
    struct served served = {0, 0, 0};
    uint64_t refused = 0;
    uint8_t bytes[24];

    HOLDS(RafkudinAllocatePages(core, RAFKUDIN_ANY_PAGES, 4, 2, &served.memory) ==
          RAFKUDIN_SUCCESS);
    HOLDS(RafkudinAllocatePool(core, 4, sizeof bytes, &served.block) == RAFKUDIN_SUCCESS);
    HOLDS(RafkudinInstallProtocolInterface(core, &served.handle, &disk, 0, 0x10) ==
          RAFKUDIN_SUCCESS);
    HOLDS(RafkudinCallsLeft(core) == CALLS - 3);
    for (uint64_t calls = 0; calls < CALLS - 4; calls++)
        refused += RafkudinPoolRead(core, 8, bytes, 1) == RAFKUDIN_INVALID_PARAMETER;
    HOLDS(refused == CALLS - 4);
    HOLDS(RafkudinCallsLeft(core) == 1);
    memset(bytes, 0x5a, sizeof bytes);
    HOLDS(RafkudinPoolRead(core, served.block, bytes, sizeof bytes) == RAFKUDIN_SUCCESS);
    HOLDS(bytes[0] == 0 && bytes[sizeof bytes - 1] == 0);
    return served;
}

#define ABORTED(call) HOLDS((call) == RAFKUDIN_ABORTED)

static void try_memory(struct rafkudin *core, struct served served)
{
    uint64_t size = LEFT, key = LEFT, step = LEFT, number = LEFT;
    uint8_t map[480];
    uint32_t version = 9;

    ABORTED(RafkudinAllocatePages(core, RAFKUDIN_ANY_PAGES, 4, 1, &number));
    ABORTED(RafkudinFreePages(core, served.memory, 2));
    memset(map, 0x5a, sizeof map);
    ABORTED(RafkudinGetMemoryMapInto(core, map, sizeof map, &size, &key, &step, &version));
    HOLDS(size == LEFT && key == LEFT && step == LEFT && version == 9);
    ABORTED(RafkudinAllocatePool(core, 4, 24, &number));
    ABORTED(RafkudinFreePool(core, served.block));
    ABORTED(RafkudinPoolRead(core, served.block, map, 24));
    ABORTED(RafkudinPoolWrite(core, served.block, map, 24));
    for (size_t at = 0; at < sizeof map; at++)
        number += map[at] != 0x5a;
    HOLDS(number == LEFT);
    ABORTED(RafkudinExitBootServices(core, 0, 3));
}

static void try_handles(struct rafkudin *core, uint64_t handle)
{
    const struct rafkudin_interface interface = {disk, 0x20};
    static const uint8_t path[] = {0x7f, 0xff, 4, 0};
    struct rafkudin_guid guids[1] = {{{9}}};
    uint64_t new_handle = 0, number = LEFT, other = LEFT, handles[2] = {LEFT, LEFT};

    ABORTED(RafkudinInstallProtocolInterface(core, &new_handle, &disk, 0, 0x20));
    ABORTED(RafkudinInstallMultipleProtocolInterfaces(core, &new_handle, &interface, 1));
    HOLDS(new_handle == 0);
    ABORTED(RafkudinUninstallProtocolInterface(core, handle, &disk, 0x10));
    ABORTED(RafkudinUninstallMultipleProtocolInterfaces(core, handle, &interface, 1));
    ABORTED(RafkudinReinstallProtocolInterface(core, handle, &disk, 0x10, 0x20));
    ABORTED(RafkudinRegisterProtocolNotify(core, &disk, 7, &number));
    ABORTED(RafkudinLocateHandleInto(core, 0, &disk, 0, &number, handles, 2));
    ABORTED(RafkudinLocateHandleBuffer(core, 0, &disk, 0, &number, &other));
    ABORTED(RafkudinLocateProtocol(core, &disk, 0, &number));
    ABORTED(RafkudinProtocolsPerHandle(core, handle, guids, 1, &number));
    ABORTED(RafkudinOpenProtocol(core, handle, &disk, &number, handle, 0, 2));
    ABORTED(RafkudinCloseProtocol(core, handle, &disk, handle, 0));
    ABORTED(RafkudinOpenProtocolInformation(core, handle, &disk, &number, &other));
    ABORTED(RafkudinHandleProtocol(core, handle, &disk, &number));
    ABORTED(RafkudinConnectDrivers(core, handle, handles, 0, true));
    ABORTED(RafkudinDisconnectDrivers(core, handle, 0));
    ABORTED(RafkudinLocateDevicePath(core, &disk, &number, &other));
    ABORTED(RafkudinLocatePath(core, &disk, path, sizeof path, &number, &other));
    ABORTED(RafkudinInstallPath(core, &new_handle, path, sizeof path, &number));
    HOLDS(new_handle == 0);
    HOLDS(number == LEFT && other == LEFT && handles[0] == LEFT && handles[1] == LEFT);
    HOLDS(guids[0].bytes[0] == 9);
}

/* The memory map is that after the last call: the free pages, and behind them the two that were
 * placed and that of the pool. Nothing of a call is left to be asked for. */
static void try_state(const struct rafkudin *core)
{
    struct rafkudin_descriptor free_pages, placed;
    uint64_t event = LEFT;

    HOLDS(RafkudinCallsLeft(core) == 0);
    HOLDS(RafkudinDescriptors(core) == 2);
    HOLDS(RafkudinDescriptor(core, 0, &free_pages) == RAFKUDIN_SUCCESS);
    HOLDS(free_pages.type == RAFKUDIN_CONVENTIONAL && free_pages.number_of_pages == 253);
    HOLDS(RafkudinDescriptor(core, 1, &placed) == RAFKUDIN_SUCCESS);
    HOLDS(placed.type == 4 && placed.physical_start == 254 * 4096 && placed.number_of_pages == 3);
    HOLDS(RafkudinEvents(core, &event, 1) == 0 && event == LEFT);
}

int main(void)
{
    struct rafkudin *core = core_of_pages(1, 256, NULL, 0);
    struct served served;

    count_calls();
    leave_calls(core, CALLS);
    served = serve(core);
    try_state(core);
    try_memory(core, served);
    try_handles(core, served.handle);
    try_state(core);
    RafkudinFree(core);
    return points_end("last_call");
}
