/* The protocol services that install and look up. */
#include "host.h"

#include <stdarg.h>
#include <stdlib.h>
#include <string.h>

#define MAX_INTERFACES 64U

/* Notes an interface that is installed. */
static void hold_interface(uint64_t handle, const struct rafkudin_guid *guid, uint64_t value)
{
    struct held held = {handle, 0, 0, value, {0}, 0, {0}};

    memcpy(&held.guid, guid, sizeof held.guid);
    hold(&held);
}

/* Values that are handed to the core and back: those of device paths are other ones there. A GUID
 * of an image's is copied, since a notification may free it. */
EFI_STATUS install_one(uint64_t *handle, const void *guid, uint32_t kind, uint64_t value)
{
    const struct rafkudin_guid copy = core_guid(guid);
    uint64_t core_value = value;
    EFI_STATUS status;

    if (!path_to_core(&copy, &core_value))
        return EFI_OUT_OF_RESOURCES;
    status = core_install(handle, &copy, kind, core_value);
    if (status == EFI_SUCCESS)
        hold_interface(*handle, &copy, value);
    else if (core_value != value)
        path_drop(core_value);
    return status;
}

/* All of these, or none. */
EFI_STATUS install_many(uint64_t *handle, const struct rafkudin_interface *list, size_t count)
{
    struct rafkudin_interface interfaces[MAX_INTERFACES];
    EFI_STATUS status = EFI_OUT_OF_RESOURCES;
    size_t known = 0;

    memcpy(interfaces, list, count * sizeof *list);
    while (known < count && path_to_core(&list[known].guid, &interfaces[known].value))
        known++;
    if (known == count)
        status = core_install_many(handle, interfaces, count);
    for (size_t i = 0; i < known; i++)
        if (status == EFI_SUCCESS)
            hold_interface(*handle, &list[i].guid, list[i].value);
        else if (interfaces[i].value != list[i].value)
            path_drop(interfaces[i].value);
    return status;
}

/* Where a driver has the interface open it is stopped first. Where the interface can't go all the
 * same, the drivers that were stopped are connected again. */
EFI_STATUS uninstall_one(uint64_t handle, const void *guid, uint64_t value)
{
    const struct rafkudin_guid copy = core_guid(guid);
    uint64_t core_value = path_installed(handle, &copy, value);
    EFI_STATUS status = core_uninstall(handle, &copy, core_value);
    enum stopped stopped = NONE_TO_STOP;

    if (status == EFI_ACCESS_DENIED)
        stopped = stop_drivers_on(handle, &copy);
    if (stopped == ALL_STOPPED) {
        core_value = path_installed(handle, &copy, value);
        status = core_uninstall(handle, &copy, core_value);
    }
    if (status != EFI_SUCCESS && stopped != NONE_TO_STOP)
        connect_controller(handle, NULL, NULL, true);
    if (status != EFI_SUCCESS)
        return status;
    if (core_value != value)
        path_drop(core_value);
    let_go(handle, &copy, 0, 0, true);
    return EFI_SUCCESS;
}

/* The interface of a handle, or NULL. */
void *interface_of(uint64_t handle, const void *guid)
{
    uint64_t value = 0;

    if (core_handle_protocol(handle, guid, &value) != EFI_SUCCESS)
        return NULL;
    return POINTER(path_from_core(guid, value));
}

static EFI_STATUS EFIAPI InstallProtocolInterface(EFI_HANDLE *handle, const EFI_GUID *guid,
                                                  uint32_t kind, void *interface)
{
    SERVICE("InstallProtocolInterface", NUMBER(handle), NUMBER(guid), kind, NUMBER(interface));
    uint64_t number;
    EFI_STATUS status;

    if (handle == NULL || guid == NULL)
        ANSWER(EFI_INVALID_PARAMETER);
    number = NUMBER(*handle);
    status = install_one(&number, guid, kind, NUMBER(interface));
    if (status == EFI_SUCCESS)
        *handle = HANDLE(number);
    ANSWER(status);
}

static EFI_STATUS EFIAPI UninstallProtocolInterface(EFI_HANDLE handle, const EFI_GUID *guid,
                                                    void *interface)
{
    SERVICE("UninstallProtocolInterface", NUMBER(handle), NUMBER(guid), NUMBER(interface));

    if (guid == NULL)
        ANSWER(EFI_INVALID_PARAMETER);
    ANSWER(uninstall_one(NUMBER(handle), guid, NUMBER(interface)));
}

static EFI_STATUS EFIAPI ReinstallProtocolInterface(EFI_HANDLE handle, const EFI_GUID *guid,
                                                    void *old, void *interface)
{
    SERVICE("ReinstallProtocolInterface", NUMBER(handle), NUMBER(guid), NUMBER(old),
            NUMBER(interface));
    const struct rafkudin_guid copy = core_guid(guid);
    uint64_t number = NUMBER(handle), core_old, core_new = NUMBER(interface);
    enum stopped stopped = NONE_TO_STOP;
    EFI_STATUS status;

    if (guid == NULL)
        ANSWER(EFI_INVALID_PARAMETER);
    core_old = path_installed(number, &copy, NUMBER(old));
    if (!path_to_core(&copy, &core_new))
        ANSWER(EFI_OUT_OF_RESOURCES);
    status = core_reinstall(number, &copy, core_old, core_new);
    if (status == EFI_ACCESS_DENIED)
        stopped = stop_drivers_on(number, &copy);
    if (stopped == ALL_STOPPED) {
        core_old = path_installed(number, &copy, NUMBER(old));
        status = core_reinstall(number, &copy, core_old, core_new);
    }
    if (status == EFI_SUCCESS && core_old != NUMBER(old))
        path_drop(core_old);
    if (status != EFI_SUCCESS && core_new != NUMBER(interface))
        path_drop(core_new);
    if (status == EFI_SUCCESS || stopped != NONE_TO_STOP)
        connect_controller(number, NULL, NULL, true);
    ANSWER(status);
}

/* The pairs of a list of arguments, of at most `room`; `count` is how many there are. */
static bool read_list(__builtin_ms_va_list words, struct rafkudin_interface *list, size_t *count)
{
    const EFI_GUID *guid;

    *count = 0;
    while ((guid = __builtin_va_arg(words, const EFI_GUID *)) != NULL) {
        if (*count == MAX_INTERFACES)
            return false;
        list[*count].guid = core_guid(guid);
        list[(*count)++].value = __builtin_va_arg(words, uint64_t);
    }
    return true;
}

/* Of no interfaces the reference implementation makes nothing of it, and returns SUCCESS. */
static EFI_STATUS EFIAPI InstallMultipleProtocolInterfaces(EFI_HANDLE *handle, ...)
{
    SERVICE("InstallMultipleProtocolInterfaces", NUMBER(handle));
    struct rafkudin_interface list[MAX_INTERFACES];
    __builtin_ms_va_list words;
    uint64_t number;
    EFI_STATUS status;
    size_t count;
    bool fits;

    if (handle == NULL)
        ANSWER(EFI_INVALID_PARAMETER);
    __builtin_ms_va_start(words, handle);
    fits = read_list(words, list, &count);
    __builtin_ms_va_end(words);
    if (!fits)
        ANSWER(EFI_OUT_OF_RESOURCES);
    if (count == 0)
        ANSWER(EFI_SUCCESS);
    number = NUMBER(*handle);
    status = install_many(&number, list, count);
    if (status == EFI_SUCCESS)
        *handle = HANDLE(number);
    ANSWER(status);
}

/* Stops what has one of the interfaces open, up to the first that can't be stopped. */
static enum stopped stop_drivers_on_list(uint64_t handle, const struct rafkudin_interface *list, size_t count)
{
    enum stopped all = NONE_TO_STOP;

    for (size_t i = 0; i < count && all != NOT_ALL_STOPPED; i++) {
        enum stopped here = stop_drivers_on(handle, &list[i].guid);

        if (here != NONE_TO_STOP)
            all = here;
    }
    return all;
}

/* All interfaces go or none; before they do, the drivers that have one open are stopped, as for
 * UninstallProtocolInterface. */
static EFI_STATUS uninstall_list(uint64_t handle, const struct rafkudin_interface *list, size_t count)
{
    struct rafkudin_interface interfaces[MAX_INTERFACES];
    enum stopped stopped = NONE_TO_STOP;
    bool are_there = true;
    EFI_STATUS status;

    for (size_t i = 0; i < count; i++) {
        interfaces[i].guid = list[i].guid;
        interfaces[i].value = path_installed(handle, &list[i].guid, list[i].value);
        are_there &= interface_of(handle, &list[i].guid) == POINTER(list[i].value);
    }
    status = core_uninstall_many(handle, interfaces, count);
    if (status == EFI_INVALID_PARAMETER && are_there)
        stopped = stop_drivers_on_list(handle, list, count);
    if (stopped == ALL_STOPPED)
        status = core_uninstall_many(handle, interfaces, count);
    if (status != EFI_SUCCESS && stopped != NONE_TO_STOP)
        connect_controller(handle, NULL, NULL, true);
    for (size_t i = 0; status == EFI_SUCCESS && i < count; i++) {
        if (interfaces[i].value != list[i].value)
            path_drop(interfaces[i].value);
        let_go(handle, &list[i].guid, 0, 0, true);
    }
    return status;
}

static EFI_STATUS EFIAPI UninstallMultipleProtocolInterfaces(EFI_HANDLE handle, ...)
{
    SERVICE("UninstallMultipleProtocolInterfaces", NUMBER(handle));
    struct rafkudin_interface list[MAX_INTERFACES];
    __builtin_ms_va_list words;
    size_t count;
    bool fits;

    __builtin_ms_va_start(words, handle);
    fits = read_list(words, list, &count);
    __builtin_ms_va_end(words);
    if (!fits)
        ANSWER(EFI_INVALID_PARAMETER);
    ANSWER(uninstall_list(NUMBER(handle), list, count));
}

static EFI_STATUS EFIAPI RegisterProtocolNotify(const EFI_GUID *guid, EFI_EVENT event, void **key)
{
    SERVICE("RegisterProtocolNotify", NUMBER(guid), NUMBER(event));
    uint64_t number = event_number(event), made = 0;
    EFI_STATUS status;

    if (guid == NULL || key == NULL || number == 0)
        ANSWER(EFI_INVALID_PARAMETER);
    status = core_notify(guid, number, &made);
    if (status == EFI_SUCCESS)
        *key = POINTER(made);
    ANSWER(status);
}

static EFI_STATUS EFIAPI LocateHandle(uint32_t search, const EFI_GUID *guid, void *key,
                                      UINTN *size, EFI_HANDLE *handles)
{
    SERVICE("LocateHandle", search, NUMBER(guid), NUMBER(key), size == NULL ? 0 : *size);
    static uint64_t list[RAFKUDIN_MAX_HANDLES];
    uint64_t bytes;
    EFI_STATUS status;

    if (size == NULL || (handles == NULL && *size != 0) ||
        (guid == NULL && search == RAFKUDIN_BY_PROTOCOL))
        ANSWER(EFI_INVALID_PARAMETER);
    bytes = *size < sizeof list ? *size : sizeof list;
    status = core_locate(search, guid, NUMBER(key), &bytes, list);
    if (status == EFI_SUCCESS) {
        touch(handles, bytes, true);
        memcpy(handles, list, bytes);
    }
    if (status == EFI_SUCCESS || status == EFI_BUFFER_TOO_SMALL)
        *size = bytes;
    ANSWER(status);
}

/* On a refusal the count is 0 and the buffer null, as in the reference implementation. */
static EFI_STATUS EFIAPI LocateHandleBuffer(uint32_t search, const EFI_GUID *guid, void *key,
                                            UINTN *count, EFI_HANDLE **handles)
{
    SERVICE("LocateHandleBuffer", search, NUMBER(guid), NUMBER(key));
    uint64_t address = 0, found_handles = 0;
    void *block = NULL;
    EFI_STATUS status;

    if (count == NULL || handles == NULL || (guid == NULL && search == RAFKUDIN_BY_PROTOCOL))
        ANSWER(EFI_INVALID_PARAMETER);
    status = core_locate_buffer(search, guid, NUMBER(key), &found_handles, &address);
    if (status == EFI_OUT_OF_RESOURCES && give_red_pages())
        status = core_locate_buffer(search, guid, NUMBER(key), &found_handles, &address);
    if (status == EFI_SUCCESS)
        status = host_adopt_block(address, 8 * found_handles, &block);
    *count = status == EFI_SUCCESS ? found_handles : 0;
    *handles = block;
    ANSWER(status);
}

/* Notes a protocol that nobody installed. */
static void ask_missing_protocol(const EFI_GUID *guid)
{
    char text[64];

    snprintf(text, sizeof text, "protocol %s", guid_text(guid));
    ask_missing(text);
}

static EFI_STATUS EFIAPI LocateProtocol(const EFI_GUID *guid, void *key, void **interface)
{
    SERVICE("LocateProtocol", NUMBER(guid), NUMBER(key));
    uint64_t value = 0;
    EFI_STATUS status;

    if (guid == NULL || interface == NULL)
        ANSWER(EFI_INVALID_PARAMETER);
    status = core_locate_protocol(guid, NUMBER(key), &value);
    if (status == EFI_NOT_FOUND && key == NULL)
        ask_missing_protocol(guid);
    *interface = status == EFI_SUCCESS ? POINTER(path_from_core(guid, value)) : NULL;
    ANSWER(status);
}

/* The GUIDs that are handed out by address, which stay for good; NULL where there is no memory. */
static void *lasting_guid(const struct rafkudin_guid *guid)
{
    static struct lasting {
        struct rafkudin_guid guid;
        void *shown;
        struct lasting *next;
    } *rows[256];
    struct lasting **row = &rows[guid->bytes[0]], *it = *row;
    void *shown;

    while (it != NULL && !guid_equal(&it->guid, guid))
        it = it->next;
    if (it != NULL)
        return it->shown;
    it = malloc(sizeof *it);
    if (it == NULL)
        return NULL;
    shown = make_structure("a GUID of ProtocolsPerHandle", guid, sizeof *guid);
    if (shown == NULL) {
        free(it);
        return NULL;
    }
    *it = (struct lasting){*guid, shown, *row};
    *row = it;
    return shown;
}

static EFI_STATUS EFIAPI ProtocolsPerHandle(EFI_HANDLE handle, EFI_GUID ***guids, UINTN *count)
{
    static struct rafkudin_guid list[1024];
    SERVICE("ProtocolsPerHandle", NUMBER(handle));
    uint64_t found_guids = 0;
    void *block = NULL;
    EFI_STATUS status;

    if (guids == NULL || count == NULL)
        ANSWER(EFI_INVALID_PARAMETER);
    status = core_protocols(NUMBER(handle), list, LENGTH(list), &found_guids);
    if (status == EFI_SUCCESS)
        status = host_pool(RAFKUDIN_BOOT_SERVICES_DATA, 8 * found_guids, &block);
    if (status != EFI_SUCCESS)
        ANSWER(status);
    for (uint64_t i = 0; i < found_guids; i++) {
        EFI_GUID *guid = lasting_guid(&list[i]);

        ((EFI_GUID **)block)[i] = guid;
        if (guid != NULL)
            continue;
        host_free_pool(block);
        ANSWER(EFI_OUT_OF_RESOURCES);
    }
    *guids = block;
    *count = found_guids;
    ANSWER(EFI_SUCCESS);
}

static EFI_STATUS EFIAPI LocateDevicePath(const EFI_GUID *guid, EFI_DEVICE_PATH_PROTOCOL **path,
                                          EFI_HANDLE *device)
{
    SERVICE("LocateDevicePath", NUMBER(guid), path == NULL ? 0 : NUMBER(*path));
    uint64_t handle = 0, matched = 0;
    EFI_STATUS status;

    if (guid == NULL || path == NULL || *path == NULL)
        ANSWER(EFI_INVALID_PARAMETER);
    status = locate_path(guid, *path, &handle, &matched);
    if (status != EFI_SUCCESS)
        ANSWER(status);
    if (device == NULL)
        ANSWER(EFI_INVALID_PARAMETER);
    *path = (EFI_DEVICE_PATH_PROTOCOL *)(void *)((uint8_t *)*path + matched);
    *device = HANDLE(handle);
    ANSWER(EFI_SUCCESS);
}

void fill_protocol_services(EFI_BOOT_SERVICES *boot)
{
    boot->InstallProtocolInterface = InstallProtocolInterface;
    boot->UninstallProtocolInterface = UninstallProtocolInterface;
    boot->ReinstallProtocolInterface = ReinstallProtocolInterface;
    boot->InstallMultipleProtocolInterfaces = InstallMultipleProtocolInterfaces;
    boot->UninstallMultipleProtocolInterfaces = UninstallMultipleProtocolInterfaces;
    boot->RegisterProtocolNotify = RegisterProtocolNotify;
    boot->LocateHandle = LocateHandle;
    boot->LocateHandleBuffer = LocateHandleBuffer;
    boot->LocateProtocol = LocateProtocol;
    boot->ProtocolsPerHandle = ProtocolsPerHandle;
    boot->LocateDevicePath = LocateDevicePath;
}
