/* The protocol services that open and close, and who holds what, for the report. */
#include "host.h"

#include <stdlib.h>
#include <string.h>

#define HOLDING (RAFKUDIN_BY_CHILD_CONTROLLER | RAFKUDIN_BY_DRIVER | RAFKUDIN_EXCLUSIVE)

static struct held *held;
static size_t held_count, held_room;

/* Notes an interface that is installed, or an open that holds one; for reports alone. */
void hold(const struct held *it)
{
    if (!host.checks)
        return;
    if (held_count == held_room) {
        held_room = held_room == 0 ? 256 : 2 * held_room;
        held = must(realloc(held, held_room * sizeof *held));
    }
    held[held_count] = *it;
    held[held_count++].origin = origin_now();
}

/* An agent's opens for a controller are over; or, with `all`, the interface is gone with all. */
void let_go(uint64_t handle, const void *guid, uint64_t agent, uint64_t controller, bool all)
{
    for (size_t i = held_count; i-- > 0;)
        if (held[i].handle == handle && guid_equal(&held[i].guid, guid) &&
            (all || (held[i].attributes != 0 && held[i].agent == agent &&
                     held[i].controller == controller)))
            held[i] = held[--held_count];
}

void each_held(void (*visit)(const struct held *held, void *context), void *context)
{
    for (size_t i = 0; i < held_count; i++)
        visit(&held[i], context);
}

/* Whether an interface is open exclusively, so that no stop of a driver makes way for another. */
static bool is_exclusive(uint64_t handle, const struct rafkudin_guid *guid)
{
    struct rafkudin_item item;

    for (size_t i = 0;
         RafkudinOpenItem(host.core, handle, guid, i, &item) == RAFKUDIN_SUCCESS; i++)
        if ((item.attributes & RAFKUDIN_EXCLUSIVE) != 0)
            return true;
    return false;
}

/* Every refusal but ALREADY_STARTED writes null. */
static EFI_STATUS EFIAPI OpenProtocol(EFI_HANDLE handle, const EFI_GUID *guid, void **interface,
                                      EFI_HANDLE agent, EFI_HANDLE controller, uint32_t attributes)
{
    SERVICE("OpenProtocol", NUMBER(handle), NUMBER(guid), NUMBER(agent), attributes);
    const struct rafkudin_guid copy = core_guid(guid);
    struct held it = {NUMBER(handle), NUMBER(agent), NUMBER(controller), 0, {0}, attributes, {0}};
    uint64_t value = 0;
    EFI_STATUS status;

    if (guid == NULL || (interface == NULL && attributes != RAFKUDIN_TEST_PROTOCOL))
        ANSWER(EFI_INVALID_PARAMETER);
    memcpy(&it.guid, &copy, sizeof it.guid);
    status = core_open(it.handle, &copy, &value, it.agent, it.controller, attributes);
    if (status == EFI_ACCESS_DENIED && (attributes & RAFKUDIN_EXCLUSIVE) != 0 &&
        !is_exclusive(it.handle, &copy) && stop_drivers_on(it.handle, &copy) == ALL_STOPPED)
        status = core_open(it.handle, &copy, &value, it.agent, it.controller, attributes);
    if (attributes != RAFKUDIN_TEST_PROTOCOL)
        *interface = POINTER(path_from_core(&copy, value));
    if (status == EFI_SUCCESS && (attributes & HOLDING) != 0)
        hold(&it);
    ANSWER(status);
}

static EFI_STATUS EFIAPI CloseProtocol(EFI_HANDLE handle, const EFI_GUID *guid, EFI_HANDLE agent,
                                       EFI_HANDLE controller)
{
    SERVICE("CloseProtocol", NUMBER(handle), NUMBER(guid), NUMBER(agent), NUMBER(controller));
    EFI_STATUS status;

    if (guid == NULL)
        ANSWER(EFI_INVALID_PARAMETER);
    status = core_close(NUMBER(handle), guid, NUMBER(agent), NUMBER(controller));
    if (status == EFI_SUCCESS)
        let_go(NUMBER(handle), guid, NUMBER(agent), NUMBER(controller), false);
    ANSWER(status);
}

/* Of nothing open there is a block of no entries, which the caller frees, as in the reference
 * implementation. */
static EFI_STATUS EFIAPI OpenProtocolInformation(EFI_HANDLE handle, const EFI_GUID *guid,
                                                 EFI_OPEN_PROTOCOL_INFORMATION_ENTRY **entries,
                                                 UINTN *count)
{
    SERVICE("OpenProtocolInformation", NUMBER(handle), NUMBER(guid));
    uint64_t address = 0, found_entries = 0;
    void *block = NULL;
    EFI_STATUS status;

    if (guid == NULL || entries == NULL || count == NULL)
        ANSWER(EFI_INVALID_PARAMETER);
    status = core_information(NUMBER(handle), guid, &address, &found_entries);
    if (status == EFI_OUT_OF_RESOURCES && give_red_pages())
        status = core_information(NUMBER(handle), guid, &address, &found_entries);
    if (status == EFI_SUCCESS && found_entries == 0)
        status = host_pool(RAFKUDIN_BOOT_SERVICES_DATA, 0, &block);
    else if (status == EFI_SUCCESS)
        status = host_adopt_block(address, sizeof **entries * found_entries, &block);
    if (status != EFI_SUCCESS)
        ANSWER(status);
    *entries = block;
    *count = found_entries;
    ANSWER(EFI_SUCCESS);
}

static EFI_STATUS EFIAPI HandleProtocol(EFI_HANDLE handle, const EFI_GUID *guid, void **interface)
{
    SERVICE("HandleProtocol", NUMBER(handle), NUMBER(guid));
    uint64_t value = 0;
    EFI_STATUS status;

    if (guid == NULL || interface == NULL)
        ANSWER(EFI_INVALID_PARAMETER);
    status = core_handle_protocol(NUMBER(handle), guid, &value);
    *interface = status == EFI_SUCCESS ? POINTER(path_from_core(guid, value)) : NULL;
    ANSWER(status);
}

static EFI_STATUS EFIAPI ConnectController(EFI_HANDLE handle, EFI_HANDLE *drivers,
                                           EFI_DEVICE_PATH_PROTOCOL *rest, BOOLEAN recursive)
{
    SERVICE("ConnectController", NUMBER(handle), NUMBER(drivers), NUMBER(rest), recursive);

    ANSWER(connect_controller(NUMBER(handle), drivers, rest, recursive));
}

static EFI_STATUS EFIAPI DisconnectController(EFI_HANDLE handle, EFI_HANDLE driver,
                                              EFI_HANDLE child)
{
    SERVICE("DisconnectController", NUMBER(handle), NUMBER(driver), NUMBER(child));

    ANSWER(disconnect_controller(NUMBER(handle), NUMBER(driver), NUMBER(child)));
}

void fill_open_services(EFI_BOOT_SERVICES *boot)
{
    boot->OpenProtocol = OpenProtocol;
    boot->CloseProtocol = CloseProtocol;
    boot->OpenProtocolInformation = OpenProtocolInformation;
    boot->HandleProtocol = HandleProtocol;
    boot->ConnectController = ConnectController;
    boot->DisconnectController = DisconnectController;
}
