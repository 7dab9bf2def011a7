/* Stopping drivers that are code: for DisconnectController, and before an interface is opened
 * exclusively, uninstalled or reinstalled.
 *
 * Which drivers those are, in which order, and which children each has is what the library says
 * (RafkudinStopsOnInterface and the functions behind it). It is asked again after each stop: a
 * driver's Stop calls the services itself, and so may stop others. None is stopped twice for one
 * call. */
#include "host.h"

#include <stdlib.h>
#include <string.h>

struct stops {
    struct rafkudin_stop *list;
    uint64_t count, room;
};

/* What is to be stopped: the drivers that have an interface open; or, without a GUID, those that
 * manage a handle, or of these one. */
struct cause {
    uint64_t handle, driver;
    const void *guid;
};

static void add_stop(struct stops *stops, struct rafkudin_stop stop)
{
    if (stops->count == stops->room) {
        stops->room = stops->room == 0 ? 8 : 2 * stops->room;
        stops->list = must(realloc(stops->list, stops->room * sizeof *stops->list));
    }
    stops->list[stops->count++] = stop;
}

static bool has_stop(const struct stops *stops, struct rafkudin_stop stop)
{
    for (uint64_t i = 0; i < stops->count; i++)
        if (stops->list[i].controller == stop.controller && stops->list[i].agent == stop.agent)
            return true;
    return false;
}

static uint64_t ask_stops(const struct cause *cause, struct stops *stops)
{
    struct rafkudin_guid guid = core_guid(cause->guid);

    if (cause->guid != NULL)
        return RafkudinStopsOnInterface(host.core, cause->handle, &guid, stops->list, stops->room,
                                        &stops->count);
    return RafkudinStopsOnController(host.core, cause->handle, cause->driver, stops->list,
                                     stops->room, &stops->count);
}

/* All that is to be stopped as things are. */
static EFI_STATUS find_stops(const struct cause *cause, struct stops *stops)
{
    EFI_STATUS status = ask_stops(cause, stops);

    if (status != EFI_BUFFER_TOO_SMALL)
        return status;
    stops->room = stops->count;
    stops->list = must(realloc(stops->list, stops->room * sizeof *stops->list));
    return ask_stops(cause, stops);
}

/* The next stop that was not tried. NOT_FOUND: there is none. */
static EFI_STATUS next_stop(const struct cause *cause, const struct stops *tried,
                            struct rafkudin_stop *stop)
{
    struct stops stops = {NULL, 0, 0};
    EFI_STATUS status = find_stops(cause, &stops);
    uint64_t i = 0;

    while (status == EFI_SUCCESS && i < stops.count && has_stop(tried, stops.list[i]))
        i++;
    if (status == EFI_SUCCESS && i == stops.count)
        status = EFI_NOT_FOUND;
    if (status == EFI_SUCCESS)
        *stop = stops.list[i];
    free(stops.list);
    return status;
}

static EFI_STATUS find_children(struct rafkudin_stop stop, struct handles *children)
{
    uint64_t count = 0;
    EFI_STATUS status =
        RafkudinChildren(host.core, stop.controller, stop.agent, NULL, 0, &count);

    if (status == EFI_BUFFER_TOO_SMALL) {
        children->list = must(malloc(count * sizeof *children->list));
        status = RafkudinChildren(host.core, stop.controller, stop.agent, children->list, count,
                                  &count);
    }
    children->count = children->room = status == EFI_SUCCESS ? count : 0;
    return status;
}

/* Calls a driver's Stop for these children or for the controller itself; it may be gone by now. */
static EFI_STATUS stop_once(struct rafkudin_stop stop, UINTN count, EFI_HANDLE *children)
{
    EFI_DRIVER_BINDING_PROTOCOL *binding = interface_of(stop.agent, &driver_binding_guid);

    if (binding == NULL)
        return EFI_DEVICE_ERROR;
    return binding->Stop(binding, HANDLE(stop.controller), count, children);
}

/* The same for all children, whose handles the driver gets in a block of the machine's. */
static EFI_STATUS stop_children(struct rafkudin_stop stop, const struct handles *children)
{
    const size_t size = children->count * sizeof *children->list;
    EFI_HANDLE *list = try_machine_block(size);
    EFI_STATUS status;

    if (list == NULL)
        return EFI_OUT_OF_RESOURCES;
    memcpy(list, children->list, size);
    status = stop_once(stop, children->count, list);
    free_machine_block(list);
    return status;
}

/* Calls a driver's Stop: for its children first, all or the one that is named, and then, where it
 * has no others, for the controller itself. */
static EFI_STATUS call_stop(struct rafkudin_stop stop, uint64_t child,
                            const struct handles *children)
{
    EFI_HANDLE one = HANDLE(child);
    EFI_STATUS status = EFI_SUCCESS;

    if (child != 0)
        status = stop_once(stop, 1, &one);
    else if (children->count > 0)
        status = stop_children(stop, children);
    if (!EFI_ERROR(status) && (child == 0 || children->count == 1))
        status = stop_once(stop, 0, NULL);
    return status;
}

/* Stops one driver on a controller. NOT_FOUND: it has not the child that is named. DEVICE_ERROR: it
 * can't be stopped; an agent without a driver binding never can. */
static EFI_STATUS carry_out(struct rafkudin_stop stop, uint64_t child)
{
    struct handles children = {NULL, 0, 0};
    EFI_STATUS status = find_children(stop, &children);
    bool has_child = child == 0;

    for (size_t i = 0; i < children.count; i++)
        has_child |= children.list[i] == child;
    if (status == EFI_SUCCESS && !has_child)
        status = EFI_NOT_FOUND;
    if (status == EFI_SUCCESS && EFI_ERROR(call_stop(stop, child, &children)))
        status = EFI_DEVICE_ERROR;
    free(children.list);
    return status;
}

/* DisconnectController. All drivers are tried, whatever comes of the others; those without the
 * child that is named are left alone, and NOT_FOUND says that none has it. */
EFI_STATUS disconnect_controller(uint64_t controller, uint64_t driver, uint64_t child)
{
    const struct cause cause = {controller, driver, NULL};
    struct stops tried = {NULL, 0, 0};
    EFI_STATUS status, result = EFI_SUCCESS;
    struct rafkudin_stop stop;
    uint64_t without_child = 0;

    if (!is_live(controller) || (child != 0 && !is_live(child)) ||
        (driver != 0 && interface_of(driver, &driver_binding_guid) == NULL))
        return EFI_INVALID_PARAMETER;
    while ((status = next_stop(&cause, &tried, &stop)) == EFI_SUCCESS) {
        add_stop(&tried, stop);
        status = carry_out(stop, child);
        if (status == EFI_NOT_FOUND)
            without_child++;
        else if (status != EFI_SUCCESS)
            result = status;
    }
    free(tried.list);
    if (status != EFI_NOT_FOUND)
        return status;
    return tried.count > 0 && without_child == tried.count ? EFI_NOT_FOUND : result;
}

/* Stops the drivers that have an interface open, up to the first that can't be stopped. */
enum stopped stop_drivers_on(uint64_t handle, const void *guid)
{
    const struct cause cause = {handle, 0, guid};
    struct stops tried = {NULL, 0, 0};
    EFI_STATUS status;
    struct rafkudin_stop stop;

    while ((status = next_stop(&cause, &tried, &stop)) == EFI_SUCCESS) {
        add_stop(&tried, stop);
        status = carry_out(stop, 0);
        if (status != EFI_SUCCESS)
            break;
    }
    free(tried.list);
    if (status != EFI_NOT_FOUND)
        return NOT_ALL_STOPPED;
    return tried.count == 0 ? NONE_TO_STOP : ALL_STOPPED;
}
