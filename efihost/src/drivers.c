/* Drivers that are code, and how they are started.
 *
 * Whose turn it is on a controller is what the library says (RafkudinConnectBegin and the functions
 * behind it); here they are asked and started, and the controllers below are connected in turn.
 * Drivers call the services themselves, so a connect or a stop may run inside of another: what one
 * goes by is its own, and nothing of it is kept. */
#include "host.h"

#include <stdlib.h>

bool is_live(uint64_t handle)
{
    struct rafkudin_interface first;

    return RafkudinInterface(host.core, handle, 0, &first) == RAFKUDIN_SUCCESS;
}

/* Whether a handle still has an interface, which the image that is called next may have removed. */
bool has_interface(uint64_t handle, const void *guid, const void *interface)
{
    return interface != NULL && interface_of(handle, guid) == interface;
}

/* Adds a handle to a list, unless it is there. */
void add_handle(struct handles *handles, uint64_t handle)
{
    for (size_t i = 0; i < handles->count; i++)
        if (handles->list[i] == handle)
            return;
    if (handles->count == handles->room) {
        handles->room = handles->room == 0 ? 16 : 2 * handles->room;
        handles->list = must(realloc(handles->list, handles->room * sizeof *handles->list));
    }
    handles->list[handles->count++] = handle;
}

/* The live handles that carry a GUID, by ascending numbers. */
struct handles handles_with(const void *guid)
{
    struct rafkudin_guid wanted = core_guid(guid);
    struct handles handles = {NULL, 0, 0};
    uint64_t count = 0;

    if (RafkudinHoldersInto(host.core, &wanted, NULL, 0, &count) != RAFKUDIN_BUFFER_TOO_SMALL)
        return handles;
    handles.list = must(malloc(count * sizeof *handles.list));
    handles.room = count;
    if (RafkudinHoldersInto(host.core, &wanted, handles.list, count, &count) == RAFKUDIN_SUCCESS)
        handles.count = count;
    return handles;
}

/* ---- The drivers of one controller ---- */

struct drivers {
    struct rafkudin_binding *list;
    size_t count;
};

/* All drivers, by ascending handle. */
static struct drivers find_drivers(void)
{
    struct handles handles = handles_with(&driver_binding_guid);
    struct drivers drivers = {must(calloc(handles.count + 1, sizeof *drivers.list)), 0};

    for (size_t i = 0; i < handles.count; i++) {
        EFI_DRIVER_BINDING_PROTOCOL *binding =
            interface_of(handles.list[i], &driver_binding_guid);

        if (binding == NULL)
            continue;
        drivers.list[drivers.count].handle = handles.list[i];
        drivers.list[drivers.count].driver = NUMBER(binding);
        drivers.list[drivers.count++].version = binding->Version;
    }
    free(handles.list);
    return drivers;
}

/* Takes a driver's turn: whether it supports the controller, and so was started; *done, whether it
 * could be. One that is gone by now, or has another interface, supports nothing; its Supported may
 * have uninstalled it. */
static bool take_turn(const struct rafkudin_binding *driver, EFI_HANDLE controller,
                      EFI_DEVICE_PATH_PROTOCOL *rest, bool *done)
{
    EFI_DRIVER_BINDING_PROTOCOL *binding = POINTER(driver->driver);

    if (!has_interface(driver->handle, &driver_binding_guid, binding) ||
        EFI_ERROR(binding->Supported(binding, controller, rest)) ||
        !has_interface(driver->handle, &driver_binding_guid, binding))
        return false;
    if (!EFI_ERROR(binding->Start(binding, controller, rest)))
        *done = true;
    return true;
}

static bool is_end_of_path(const EFI_DEVICE_PATH_PROTOCOL *path)
{
    return path != NULL && (path->Type & 0x7f) == 0x7f && path->SubType == 0xff;
}

/* Connects one controller. NOT_FOUND: no driver was started, and the rest of the path is not its
 * end. */
static EFI_STATUS connect_one(uint64_t controller, const EFI_HANDLE *first,
                              EFI_DEVICE_PATH_PROTOCOL *rest)
{
    uint64_t named[RAFKUDIN_MAX_DRIVERS_TO_TRY];
    struct rafkudin_binding driver;
    struct rafkudin_turns turns;
    struct drivers drivers;
    bool done = is_end_of_path(rest);
    size_t named_count;
    EFI_STATUS status;

    if (!is_live(controller))
        return EFI_INVALID_PARAMETER;
    named_count = name_drivers(controller, first, named);
    drivers = find_drivers();
    status = RafkudinConnectBegin(host.core, controller, named, named_count, drivers.list,
                                  drivers.count, &turns);
    while (status == EFI_SUCCESS && RafkudinConnectNext(&turns, drivers.list, drivers.count,
                                                        &driver) == RAFKUDIN_SUCCESS)
        RafkudinConnectRecord(&turns, drivers.list, drivers.count,
                              take_turn(&driver, HANDLE(controller), rest, &done));
    free(drivers.list);
    if (status != EFI_SUCCESS)
        return status;
    return done ? EFI_SUCCESS : EFI_NOT_FOUND;
}

/* ---- The controllers below ---- */

static int compare_handles(const void *one, const void *other)
{
    uint64_t first = *(const uint64_t *)one, second = *(const uint64_t *)other;

    return (first > second) - (first < second);
}

/* The handles for which a controller is open as for a child, ascending. */
static struct handles children_of(uint64_t controller)
{
    struct handles children = {NULL, 0, 0};
    struct rafkudin_interface on;
    struct rafkudin_item item;

    for (size_t i = 0; RafkudinInterface(host.core, controller, i, &on) == RAFKUDIN_SUCCESS; i++)
        for (size_t k = 0; RafkudinOpenItem(host.core, controller, &on.guid, k, &item) ==
                           RAFKUDIN_SUCCESS; k++)
            if (item.attributes == RAFKUDIN_BY_CHILD_CONTROLLER)
                add_handle(&children, item.controller);
    if (children.count > 1)
        qsort(children.list, children.count, sizeof *children.list, compare_handles);
    return children;
}

/* Puts the children of a controller before all that waits, unless they have waited before. */
static void let_wait(struct handles *waiting, struct handles *seen, uint64_t controller)
{
    struct handles children = children_of(controller);

    for (size_t i = children.count; i-- > 0;) {
        size_t count = seen->count;

        add_handle(seen, children.list[i]);
        if (seen->count > count)
            add_handle(waiting, children.list[i]);
    }
    free(children.list);
}

/* ConnectController: with `recursive` also all controllers below, each once, and all below one
 * before the next. */
EFI_STATUS connect_controller(uint64_t controller, const EFI_HANDLE *first,
                              EFI_DEVICE_PATH_PROTOCOL *rest, bool recursive)
{
    EFI_STATUS status = connect_one(controller, first, rest);
    struct handles waiting = {NULL, 0, 0}, seen = {NULL, 0, 0};

    if (!recursive || status == EFI_INVALID_PARAMETER)
        return status;
    add_handle(&seen, controller);
    let_wait(&waiting, &seen, controller);
    while (waiting.count > 0) {
        uint64_t next = waiting.list[--waiting.count];

        connect_one(next, NULL, NULL);
        let_wait(&waiting, &seen, next);
    }
    free(waiting.list);
    free(seen.list);
    return status;
}
