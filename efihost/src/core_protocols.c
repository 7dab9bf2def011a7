/* The protocol services of the library, each with its line of the trace and its reply. What an
 * installation signals is signalled here. */
#include "host.h"

#include <string.h>

#define MAX_EVENTS 1024

struct rafkudin_guid core_guid(const void *guid)
{
    struct rafkudin_guid copy = {{0}};

    if (guid != NULL)
        memcpy(copy.bytes, guid, sizeof copy.bytes);
    return copy;
}

/* Signals the events of the last call, which had this status. */
static void signal_last(uint64_t status)
{
    static uint64_t events[MAX_EVENTS];
    size_t count = status == 0 ? RafkudinEvents(host.core, events, MAX_EVENTS) : 0;

    signal_numbers(events, count > MAX_EVENTS ? MAX_EVENTS : count);
}

uint64_t core_install(uint64_t *handle, const void *guid, uint32_t kind, uint64_t value)
{
    struct rafkudin_guid copy = core_guid(guid);
    uint64_t asked = *handle, status;

    status = RafkudinInstallProtocolInterface(host.core, handle, &copy, kind, value);
    TRACE(.service = RAFKUDIN_CALL_INSTALL_PROTOCOL_INTERFACE, .handle = asked, .protocol = copy,
          .type = kind, .value = value);
    signal_last(status);
    return status;
}

uint64_t core_install_many(uint64_t *handle, const struct rafkudin_interface *list, size_t count)
{
    uint64_t asked = *handle, status;

    status = RafkudinInstallMultipleProtocolInterfaces(host.core, handle, list, count);
    TRACE(.service = RAFKUDIN_CALL_INSTALL_MULTIPLE_PROTOCOL_INTERFACES, .handle = asked,
          .interfaces = list, .interface_count = count);
    signal_last(status);
    return status;
}

uint64_t core_uninstall(uint64_t handle, const void *guid, uint64_t value)
{
    struct rafkudin_guid copy = core_guid(guid);
    uint64_t status = RafkudinUninstallProtocolInterface(host.core, handle, &copy, value);

    TRACE(.service = RAFKUDIN_CALL_UNINSTALL_PROTOCOL_INTERFACE, .handle = handle,
          .protocol = copy, .value = value);
    return status;
}

/* A trace has no such call: it says what the interfaces are uninstalled by one by one. */
uint64_t core_uninstall_many(uint64_t handle, const struct rafkudin_interface *list, size_t count)
{
    uint64_t status = RafkudinUninstallMultipleProtocolInterfaces(host.core, handle, list, count);

    for (size_t i = 0; tracing() && status == RAFKUDIN_SUCCESS && i < count; i++)
        trace_uninstalled(&(struct rafkudin_call){
            .service = RAFKUDIN_CALL_UNINSTALL_PROTOCOL_INTERFACE,
            .handle = handle,
            .protocol = list[i].guid,
            .value = list[i].value,
        });
    return status;
}

uint64_t core_reinstall(uint64_t handle, const void *guid, uint64_t old, uint64_t value)
{
    struct rafkudin_guid copy = core_guid(guid);
    uint64_t status = RafkudinReinstallProtocolInterface(host.core, handle, &copy, old, value);

    TRACE(.service = RAFKUDIN_CALL_REINSTALL_PROTOCOL_INTERFACE, .handle = handle,
          .protocol = copy, .value = old, .new_value = value);
    signal_last(status);
    return status;
}

uint64_t core_notify(const void *guid, uint64_t event, uint64_t *key)
{
    struct rafkudin_guid copy = core_guid(guid);
    uint64_t status = RafkudinRegisterProtocolNotify(host.core, &copy, event, key);

    TRACE(.service = RAFKUDIN_CALL_REGISTER_PROTOCOL_NOTIFY, .protocol = copy, .event = event);
    return status;
}

/* `size` is not null, and `handles` is so only beside a size of 0. */
uint64_t core_locate(uint32_t search, const void *guid, uint64_t key, uint64_t *size,
                     uint64_t *handles)
{
    struct rafkudin_guid copy = core_guid(guid);
    uint64_t asked = *size, status;

    status = RafkudinLocateHandle(host.core, search, &copy, key, size, handles);
    TRACE(.service = RAFKUDIN_CALL_LOCATE_HANDLE, .search_type = search, .protocol = copy,
          .key = key, .size = asked);
    return status;
}

uint64_t core_locate_buffer(uint32_t search, const void *guid, uint64_t key, uint64_t *count,
                            uint64_t *address)
{
    struct rafkudin_guid copy = core_guid(guid);
    uint64_t status;

    host.in_pool = true;
    status = RafkudinLocateHandleBuffer(host.core, search, &copy, key, count, address);
    host.in_pool = false;
    TRACE(.service = RAFKUDIN_CALL_LOCATE_HANDLE_BUFFER, .search_type = search, .protocol = copy,
          .key = key);
    check_certificate();
    return status;
}

uint64_t core_locate_protocol(const void *guid, uint64_t key, uint64_t *value)
{
    struct rafkudin_guid copy = core_guid(guid);
    uint64_t status = RafkudinLocateProtocol(host.core, &copy, key, value);

    TRACE(.service = RAFKUDIN_CALL_LOCATE_PROTOCOL, .protocol = copy, .key = key);
    return status;
}

uint64_t core_protocols(uint64_t handle, struct rafkudin_guid *list, size_t room, uint64_t *count)
{
    uint64_t status = RafkudinProtocolsPerHandle(host.core, handle, list, room, count);

    TRACE(.service = RAFKUDIN_CALL_PROTOCOLS_PER_HANDLE, .handle = handle);
    return status;
}

uint64_t core_open(uint64_t handle, const void *guid, uint64_t *value, uint64_t agent,
                   uint64_t controller, uint32_t attributes)
{
    struct rafkudin_guid copy = core_guid(guid);
    uint64_t status =
        RafkudinOpenProtocol(host.core, handle, &copy, value, agent, controller, attributes);

    TRACE(.service = RAFKUDIN_CALL_OPEN_PROTOCOL, .handle = handle, .protocol = copy,
          .agent = agent, .controller = controller, .attributes = attributes);
    return status;
}

uint64_t core_close(uint64_t handle, const void *guid, uint64_t agent, uint64_t controller)
{
    struct rafkudin_guid copy = core_guid(guid);
    uint64_t status = RafkudinCloseProtocol(host.core, handle, &copy, agent, controller);

    TRACE(.service = RAFKUDIN_CALL_CLOSE_PROTOCOL, .handle = handle, .protocol = copy,
          .agent = agent, .controller = controller);
    return status;
}

uint64_t core_information(uint64_t handle, const void *guid, uint64_t *address, uint64_t *count)
{
    struct rafkudin_guid copy = core_guid(guid);
    uint64_t status;

    host.in_pool = true;
    status = RafkudinOpenProtocolInformation(host.core, handle, &copy, address, count);
    host.in_pool = false;
    TRACE(.service = RAFKUDIN_CALL_OPEN_PROTOCOL_INFORMATION, .handle = handle, .protocol = copy);
    check_certificate();
    return status;
}

uint64_t core_handle_protocol(uint64_t handle, const void *guid, uint64_t *value)
{
    struct rafkudin_guid copy = core_guid(guid);
    uint64_t status = RafkudinHandleProtocol(host.core, handle, &copy, value);

    TRACE(.service = RAFKUDIN_CALL_HANDLE_PROTOCOL, .handle = handle, .protocol = copy);
    return status;
}

/* The path lies in the host's memory. A trace has no such call: while there is one, the path is
 * written to a block of the pool and looked up there, which gives the same. */
uint64_t core_locate_path(const void *guid, const uint8_t *path, size_t length, uint64_t block,
                          uint64_t *matched, uint64_t *handle)
{
    struct rafkudin_guid copy = core_guid(guid);
    uint64_t behind = block, status;

    if (!tracing())
        return RafkudinLocatePath(host.core, &copy, path, length, matched, handle);
    core_write(block, path, length);
    status = RafkudinLocateDevicePath(host.core, &copy, &behind, handle);
    TRACE(.service = RAFKUDIN_CALL_LOCATE_DEVICE_PATH, .protocol = copy, .address = block);
    *matched = behind - block;
    return status;
}
