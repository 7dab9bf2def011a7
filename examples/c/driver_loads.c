/* What calls cost by which a driver of the machine is started and stopped. */
#include "fault.h"
#include "loads.h"

/* The handle that carries the driver binding, the most controllers of a round of its driver, and
 * how often an interface of one handle is reinstalled. */
#define DRIVER 1
#define MAX_DRIVEN 256
#define RESTARTS 64

/* The kind that the driver needs and opens, of an interface whose value is its handle. */
static const struct rafkudin_guid *driven_kind(const struct load *load)
{
    return &load->kinds[KINDS];
}

/* The controller of a call: a handle above the driver's. */
static uint64_t controller_at(size_t number)
{
    return DRIVER + 1 + number;
}

/* Installs the driver binding of the machine's first driver on a new handle, which is the first. */
static void install_driver(struct load *load)
{
    uint64_t handle = 0;

    if (RafkudinInstallProtocolInterface(load->core, &handle, &driver_binding, 0, 0) !=
            RAFKUDIN_SUCCESS ||
        handle != DRIVER)
        fail("the driver's handle is refused");
}

/* Installs an interface that the driver opens, and another of a kind, on a new handle. */
static bool install_with(struct load *load, size_t number, const struct rafkudin_guid *kind)
{
    uint64_t handle = 0, expected = controller_at(number);
    struct rafkudin_interface pair[2] = {{*kind, expected}, {*driven_kind(load), expected}};

    return RafkudinInstallMultipleProtocolInterfaces(load->core, &handle, pair, 2) ==
               RAFKUDIN_SUCCESS &&
           handle == expected;
}

static bool install_controller(struct load *load, size_t number)
{
    return install_with(load, number, kind_of(load, controller_at(number)));
}

const struct rafkudin_guid *other_kind(const struct load *load)
{
    return &load->kinds[0];
}

static bool install_with_other(struct load *load, size_t number)
{
    return install_with(load, number, other_kind(load));
}

static bool start_driver(struct load *load, size_t number)
{
    return RafkudinConnectDrivers(load->core, controller_at(number), NULL, 0, false) ==
           RAFKUDIN_SUCCESS;
}

static bool stop_driver(struct load *load, size_t number)
{
    return RafkudinDisconnectDrivers(load->core, controller_at(number), 0) == RAFKUDIN_SUCCESS;
}

/* Reinstalls an interface that no driver has open, on a controller where no driver is to start. */
static bool reinstall_other(struct load *load, size_t number)
{
    uint64_t handle = controller_at(number);

    return RafkudinReinstallProtocolInterface(load->core, handle, kind_of(load, handle), handle,
                                              handle) == RAFKUDIN_SUCCESS;
}

/* Reinstalls the interface that the driver has open, which stops the driver and starts it again. */
static bool reinstall_driven(struct load *load, size_t number)
{
    uint64_t handle = controller_at(number);

    return RafkudinReinstallProtocolInterface(load->core, handle, driven_kind(load), handle,
                                              handle) == RAFKUDIN_SUCCESS;
}

/* Opens the interface that the driver has open exclusively, which stops the driver. Its agent is
 * the controller. */
static bool open_exclusive(struct load *load, size_t number)
{
    uint64_t handle = controller_at(number), value;

    return RafkudinOpenProtocol(load->core, handle, driven_kind(load), &value, handle, 0,
                                RAFKUDIN_EXCLUSIVE) == RAFKUDIN_SUCCESS;
}

static bool close_exclusive(struct load *load, size_t number)
{
    uint64_t handle = controller_at(number);

    return RafkudinCloseProtocol(load->core, handle, driven_kind(load), handle, 0) ==
           RAFKUDIN_SUCCESS;
}

/* Takes out the interface that the driver has open, which stops the driver. */
static bool take_driven_out(struct load *load, size_t number)
{
    uint64_t handle = controller_at(number);

    return RafkudinUninstallProtocolInterface(load->core, handle, driven_kind(load), handle) ==
           RAFKUDIN_SUCCESS;
}

static void start_and_stop(struct load *load, size_t handles, size_t driven)
{
    install_driver(load);
    time_calls(load, "install", "InstallMultipleProtocolInterfaces", handles - 1,
               install_controller);
    time_calls(load, "start", "ConnectController", driven, start_driver);
    time_calls(load, "other", "ReinstallProtocolInterface", driven, reinstall_other);
    time_calls(load, "restart", "ReinstallProtocolInterface", driven, reinstall_driven);
    time_calls(load, "stop", "DisconnectController", driven, stop_driver);
    time_calls(load, "start", "ConnectController", driven, start_driver);
    time_calls(load, "stop", "OpenProtocol", driven, open_exclusive);
    time_calls(load, "close", "CloseProtocol", driven, close_exclusive);
    time_calls(load, "start", "ConnectController", driven, start_driver);
    time_calls(load, "stop", "UninstallProtocolInterface", driven, take_driven_out);
}

void run_drivers(struct load *load, size_t handles)
{
    start_and_stop(load, handles, least_of(handles - 1, MAX_DRIVEN));
}

void run_driven(struct load *load, size_t handles)
{
    start_and_stop(load, handles, handles - 1);
}

/* ---- Children ---- */

/* Ends the program where the table has not as many handles as it is to have. */
static void expect_handles(const struct load *load, size_t handles)
{
    uint64_t handle;

    if (RafkudinHandle(load->core, handles - 1, &handle) != RAFKUDIN_SUCCESS ||
        RafkudinHandle(load->core, handles, &handle) == RAFKUDIN_SUCCESS)
        fail("there are not %zu handles", handles);
}

/* The same drivers with a child each, which goes as its driver is stopped. A number of handles more
 * can be made. */
static void restart_children(struct load *load, size_t handles, size_t spare)
{
    size_t driven = least_of(handles / 4, MAX_DRIVEN);

    install_driver(load);
    time_calls(load, "install", "InstallMultipleProtocolInterfaces", handles - 1 - spare - driven,
               install_controller);
    time_calls(load, "start", "ConnectController", driven, start_driver);
    expect_handles(load, handles - spare);
    time_calls(load, "restart", "ReinstallProtocolInterface", driven, reinstall_driven);
    expect_handles(load, handles - spare);
    time_calls(load, "stop", "DisconnectController", driven, stop_driver);
}

void run_children(struct load *load, size_t handles)
{
    restart_children(load, handles, 1);
}

void run_full(struct load *load, size_t handles)
{
    restart_children(load, handles, 0);
}

/* Reinstalls the interface that the driver has open on the first controller. */
static bool reinstall_first(struct load *load, size_t number)
{
    (void)number;
    return reinstall_driven(load, 0);
}

/* A driver on one controller, whose child is a driver handle too. One handle more can be made. */
void run_driver_children(struct load *load, size_t handles)
{
    install_driver(load);
    time_calls(load, "install", "InstallMultipleProtocolInterfaces", handles - 3,
               install_controller);
    time_calls(load, "start", "ConnectController", 1, start_driver);
    expect_handles(load, handles - 1);
    time_calls(load, "restart", "ReinstallProtocolInterface", RESTARTS, reinstall_first);
    expect_handles(load, handles - 1);
    time_calls(load, "stop", "DisconnectController", 1, stop_driver);
}

/* ---- Drivers that do not start again ---- */

/* Takes out the interface that the driver needs and has not open. */
static bool take_other_out(struct load *load, size_t number)
{
    uint64_t handle = controller_at(number);

    return RafkudinUninstallProtocolInterface(load->core, handle, other_kind(load), handle) ==
           RAFKUDIN_SUCCESS;
}

/* Reinstalls the interface that the driver has open, where the driver misses another: it is stopped
 * and does not start. */
static void stop_by_reinstalling(struct load *load, size_t controllers, size_t driven)
{
    struct rafkudin_item item;

    install_driver(load);
    time_calls(load, "install", "InstallMultipleProtocolInterfaces", controllers,
               install_with_other);
    time_calls(load, "start", "ConnectController", driven, start_driver);
    time_calls(load, "take", "UninstallProtocolInterface", driven, take_other_out);
    time_calls(load, "stop", "ReinstallProtocolInterface", driven, reinstall_driven);
    for (size_t number = 0; number < driven; number++)
        if (RafkudinOpenItem(load->core, controller_at(number), driven_kind(load), 0, &item) !=
            RAFKUDIN_NOT_FOUND)
            fail("a driver has started again");
}

void run_stopped(struct load *load, size_t handles)
{
    stop_by_reinstalling(load, handles - 1, least_of(handles - 1, MAX_DRIVEN));
}

void run_stopped_children(struct load *load, size_t handles)
{
    size_t driven = least_of(handles / 4, MAX_DRIVEN);

    stop_by_reinstalling(load, handles - 2 - driven, driven);
    expect_handles(load, handles - 1 - driven);
}

/* ---- The driver binding ---- */

/* Reinstalls the driver binding, which no driver has open. */
static bool reinstall_binding(struct load *load, size_t number)
{
    (void)number;
    return RafkudinReinstallProtocolInterface(load->core, DRIVER, &driver_binding, 0, 0) ==
           RAFKUDIN_SUCCESS;
}

void run_bindings(struct load *load, size_t handles)
{
    size_t driven = least_of(handles - 1, MAX_DRIVEN);

    install_driver(load);
    time_calls(load, "install", "InstallMultipleProtocolInterfaces", handles - 1,
               install_controller);
    time_calls(load, "start", "ConnectController", driven, start_driver);
    time_calls(load, "binding", "ReinstallProtocolInterface", RESTARTS, reinstall_binding);
    time_calls(load, "stop", "DisconnectController", driven, stop_driver);
}
