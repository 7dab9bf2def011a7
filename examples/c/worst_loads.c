/* The calls that cost most: a device path of very many nodes on a core with a path on nearly every
 * handle, and a stop of a chain of drivers, each on the child of the one before. */
#include "fault.h"
#include "loads.h"

#include <stdlib.h>
#include <string.h>

/* The nodes of the path that is asked for, and the bytes of one, of its end and of a longer one. */
#define NODES 60000
#define NODE 4
#define END 4
#define LONGER_NODE 5

#define LOOKS 10

static const struct rafkudin_guid device_path = {{0x91, 0x6e, 0x57, 0x09, 0x3f, 0x6d, 0xd2, 0x11,
                                                  0x8e, 0x39, 0x00, 0xa0, 0xc9, 0x69, 0x72, 0x3b}};

/* ---- Device paths ---- */

static uint8_t path[NODES * NODE + LONGER_NODE + END];

/* Puts a node without data at a byte of the path; the answer is the byte behind it. */
static size_t put_node(size_t at, uint8_t type, uint8_t subtype, uint8_t length)
{
    path[at] = type;
    path[at + 1] = subtype;
    path[at + 2] = length;
    path[at + 3] = 0;
    return at + length;
}

/* Puts a path of the given number of nodes, and of a longer one behind them or none, into a block;
 * the answer is its address. */
static uint64_t install_bytes(struct load *load, size_t nodes, bool is_longer)
{
    uint64_t address;
    size_t at = 0;

    while (at < nodes * NODE)
        at = put_node(at, 1, 1, NODE);
    if (is_longer)
        at = put_node(at, 1, 1, LONGER_NODE);
    at = put_node(at, 0x7f, 0xff, END);
    if (RafkudinAllocatePool(load->core, RAFKUDIN_BOOT_SERVICES_DATA, at, &address) !=
            RAFKUDIN_SUCCESS ||
        RafkudinPoolWrite(load->core, address, path, at) != RAFKUDIN_SUCCESS)
        fail("a path is refused");
    return address;
}

/* Installs paths of fewer nodes than that which is asked for has, each of one less than the handle
 * before. With a longer node behind these nodes a path ends where no node of that path does. */
static void install_paths(struct load *load, size_t handles, bool are_longer)
{
    for (size_t number = 0; number < handles; number++) {
        uint64_t handle = 0;
        uint64_t address = install_bytes(load, NODES - 1 - number, are_longer);

        if (RafkudinInstallProtocolInterface(load->core, &handle, &device_path, 0, address) !=
            RAFKUDIN_SUCCESS)
            fail("the interface of a path is refused");
    }
    load->held->address = install_bytes(load, NODES, false);
}

/* Finds the handle with the longest path, which is the first. */
static bool look_for_path(struct load *load, size_t number)
{
    uint64_t address = load->held->address, device = 0;

    (void)number;
    return RafkudinLocateDevicePath(load->core, &device_path, &address, &device) ==
               RAFKUDIN_SUCCESS &&
           device == 1 && address == load->held->address + (NODES - 1) * NODE;
}

/* Finds none. */
static bool look_in_vain(struct load *load, size_t number)
{
    uint64_t address = load->held->address, device = 0;

    (void)number;
    return RafkudinLocateDevicePath(load->core, &device_path, &address, &device) ==
           RAFKUDIN_NOT_FOUND;
}

void run_paths(struct load *load, size_t handles)
{
    install_paths(load, handles, false);
    time_calls(load, "longest", "LocateDevicePath", LOOKS, look_for_path);
}

void run_vain_paths(struct load *load, size_t handles)
{
    install_paths(load, handles, true);
    time_calls(load, "in vain", "LocateDevicePath", LOOKS, look_in_vain);
}

/* ---- A chain of drivers ---- */

/* Starts the driver on a handle, where it makes the next one. */
static bool start_next(struct load *load, size_t number)
{
    return RafkudinConnectDrivers(load->core, number + 2, NULL, 0, false) == RAFKUDIN_SUCCESS;
}

/* Stops the driver on the first handle of the chain, and so on all. */
static bool stop_all(struct load *load, size_t number)
{
    (void)number;
    return RafkudinDisconnectDrivers(load->core, 2, 0) == RAFKUDIN_SUCCESS;
}

void run_chain(struct load *load, size_t handles)
{
    uint64_t handle = 0, value;

    if (RafkudinInstallProtocolInterface(load->core, &handle, &driver_binding, 0, 0) !=
        RAFKUDIN_SUCCESS)
        fail("the driver's handle is refused");
    handle = 0;
    if (RafkudinInstallProtocolInterface(load->core, &handle, &load->kinds[KINDS], 0, 0) !=
            RAFKUDIN_SUCCESS ||
        handle != 2)
        fail("the first controller is refused");
    time_calls(load, "start", "ConnectController", handles - 2, start_next);
    if (RafkudinHandleProtocol(load->core, handles, &load->kinds[KINDS], &value) !=
        RAFKUDIN_SUCCESS)
        fail("the chain is too short");
    time_calls(load, "stop", "DisconnectController", 1, stop_all);
    if (RafkudinHandleProtocol(load->core, 3, &load->kinds[KINDS], &value) == RAFKUDIN_SUCCESS)
        fail("the chain is not stopped");
}
