/* What both_calls.h declares. */
#include "both_calls.h"

#include "points.h"

#include <stdlib.h>
#include <string.h>

/* ---- What was returned ---- */

/* Whether some numbers are those that the lists returned, from an index on. */
static bool are_returned(const struct both *both, size_t from, const uint64_t *numbers,
                         size_t count)
{
    return both->lists->number_count == from + count &&
           memcmp(both->lists->numbers + from, numbers, count * sizeof *numbers) == 0;
}

/* Whether the lists returned this number alone where a call succeeds, and nothing else. */
static bool is_returned(const struct both *both, uint64_t status, uint64_t number)
{
    return status == RAFKUDIN_SUCCESS ? are_returned(both, 0, &number, 1)
                                      : both->lists->number_count == 0;
}

/* Whether the events of a call are those that the lists returned, from an index on. */
static bool are_events(const struct both *both, size_t from)
{
    static uint64_t events[8192];
    size_t count = RafkudinEvents(both->core, events, COUNT(events));

    return count <= COUNT(events) && are_returned(both, from, events, count);
}

static bool is_guid(const struct rafkudin_guid *guid, uint8_t byte)
{
    struct rafkudin_guid other = guid_of(byte);

    return memcmp(guid, &other, sizeof other) == 0;
}

/* ---- Installations and registrations ---- */

/* Whether an installation on a handle returned what the lists did. */
static bool is_installed(const struct both *both, uint64_t status, uint64_t handle, uint64_t given)
{
    bool is_served = status == RAFKUDIN_SUCCESS;

    return given == (is_served ? both->lists->numbers[0] : handle) && are_events(both, is_served);
}

uint64_t both_install(struct both *both, uint64_t handle, uint32_t kind, struct named named)
{
    struct rafkudin_guid guid = guid_of(named.guid);
    uint64_t wanted = plain_install(both->lists, handle, kind, &named, 1), given = handle;

    HOLDS(RafkudinInstallProtocolInterface(both->core, &given, &guid, kind, named.value) ==
          wanted);
    HOLDS(is_installed(both, wanted, handle, given));
    return wanted;
}

uint64_t both_install_many(struct both *both, uint64_t handle, const struct named *named,
                           size_t count)
{
    struct rafkudin_interface interfaces[3];
    uint64_t wanted = plain_install(both->lists, handle, 0, named, count), given = handle;

    for (size_t at = 0; at < count; at++)
        interfaces[at] = (struct rafkudin_interface){guid_of(named[at].guid), named[at].value};
    HOLDS(RafkudinInstallMultipleProtocolInterfaces(both->core, &given, interfaces, count) ==
          wanted);
    HOLDS(is_installed(both, wanted, handle, given));
    return wanted;
}

uint64_t both_uninstall(struct both *both, uint64_t handle, struct named named)
{
    struct rafkudin_guid guid = guid_of(named.guid);
    uint64_t wanted = plain_uninstall(both->lists, handle, named.guid, named.value);

    HOLDS(RafkudinUninstallProtocolInterface(both->core, handle, &guid, named.value) == wanted);
    return wanted;
}

uint64_t both_reinstall(struct both *both, uint64_t handle, struct named named, uint64_t value)
{
    struct rafkudin_guid guid = guid_of(named.guid);
    uint64_t wanted = plain_reinstall(both->lists, handle, named.guid, named.value, value);

    HOLDS(RafkudinReinstallProtocolInterface(both->core, handle, &guid, named.value, value) ==
          wanted);
    HOLDS(are_events(both, 0));
    return wanted;
}

uint64_t both_register(struct both *both, uint8_t byte, uint64_t event)
{
    struct rafkudin_guid guid = guid_of(byte);
    uint64_t wanted = plain_register(both->lists, byte, event), key = 0;

    HOLDS(RafkudinRegisterProtocolNotify(both->core, &guid, event, &key) == wanted);
    HOLDS(is_returned(both, wanted, key));
    return wanted;
}

/* ---- Searches ---- */

/* The handles and their size, or the size alone, or a size that stays. */
uint64_t both_locate(struct both *both, uint32_t search, uint8_t byte, uint64_t key,
                     uint64_t room)
{
    static uint64_t handles[RAFKUDIN_MAX_HANDLES];
    struct rafkudin_guid guid = guid_of(byte);
    uint64_t wanted = plain_locate(both->lists, search, byte, key, room), size = room;

    HOLDS(RafkudinLocateHandle(both->core, search, &guid, key, &size, handles) == wanted);
    if (wanted == RAFKUDIN_SUCCESS)
        HOLDS(size % 8 == 0 && size <= room && are_returned(both, 0, handles, size / 8));
    else if (wanted == RAFKUDIN_BUFFER_TOO_SMALL)
        HOLDS(are_returned(both, 0, &size, 1));
    else
        HOLDS(size == room && both->lists->number_count == 0);
    return wanted;
}

/* Reads a list of a number of bytes from a block of the pool, which is freed. There is no block for
 * no bytes. */
static void take_list(struct both *both, uint64_t address, void *bytes, size_t size)
{
    HOLDS((address == 0) == (size == 0));
    if (size == 0)
        return;
    HOLDS(RafkudinPoolRead(both->core, address, bytes, size) == RAFKUDIN_SUCCESS);
    HOLDS(RafkudinPoolRead(both->core, address, bytes, size + 1) == RAFKUDIN_INVALID_PARAMETER);
    HOLDS(RafkudinFreePool(both->core, address) == RAFKUDIN_SUCCESS);
}

uint64_t both_locate_buffer(struct both *both, uint32_t search, uint8_t byte, uint64_t key)
{
    static uint64_t handles[RAFKUDIN_MAX_HANDLES];
    struct rafkudin_guid guid = guid_of(byte);
    uint64_t wanted = plain_locate(both->lists, search, byte, key, UINT64_MAX);
    uint64_t count = 0, address = 0;

    HOLDS(RafkudinLocateHandleBuffer(both->core, search, &guid, key, &count, &address) == wanted);
    HOLDS(count == both->lists->number_count);
    if (count == both->lists->number_count)
        take_list(both, address, handles, count * 8);
    HOLDS(are_returned(both, 0, handles, count));
    return wanted;
}

uint64_t both_locate_protocol(struct both *both, uint8_t byte, uint64_t key)
{
    struct rafkudin_guid guid = guid_of(byte);
    uint64_t wanted = plain_locate_protocol(both->lists, byte, key), value = 0;

    HOLDS(RafkudinLocateProtocol(both->core, &guid, key, &value) == wanted);
    HOLDS(is_returned(both, wanted, value));
    return wanted;
}

uint64_t both_protocols(struct both *both, uint64_t handle)
{
    struct rafkudin_guid guids[16];
    uint64_t wanted = plain_protocols(both->lists, handle), count = 0;

    HOLDS(RafkudinProtocolsPerHandle(both->core, handle, guids, 16, &count) == wanted);
    HOLDS(count == both->lists->number_count);
    for (size_t at = 0; at < count && at < both->lists->number_count; at++)
        HOLDS(is_guid(&guids[at], (uint8_t)both->lists->numbers[at]));
    return wanted;
}

/* ---- Opens ---- */

uint64_t both_open(struct both *both, const struct item *open)
{
    struct rafkudin_guid guid = guid_of(open->guid);
    const struct interface *interface = interface_of(both->lists, open->handle, open->guid);
    uint64_t held = interface == NULL ? 0 : interface->value, value = 77, status;
    uint64_t wanted = plain_open(both->lists, open);

    status = RafkudinOpenProtocol(both->core, open->handle, &guid, &value, open->agent,
                                  open->controller, open->attributes);
    HOLDS(status == wanted);
    if (open->attributes == RAFKUDIN_TEST_PROTOCOL)
        HOLDS(value == 77 && both->lists->number_count == 0);
    else if (wanted == RAFKUDIN_SUCCESS)
        HOLDS(are_returned(both, 0, &value, 1));
    else if (wanted == RAFKUDIN_ALREADY_STARTED)
        HOLDS(value == held);
    else
        HOLDS(value == (wanted == RAFKUDIN_UNSUPPORTED ? 0 : 77));
    return wanted;
}

uint64_t both_close(struct both *both, const struct item *closed)
{
    struct rafkudin_guid guid = guid_of(closed->guid);
    uint64_t wanted = plain_close(both->lists, closed);

    HOLDS(RafkudinCloseProtocol(both->core, closed->handle, &guid, closed->agent,
                                closed->controller) == wanted);
    return wanted;
}

uint64_t both_handle_protocol(struct both *both, uint64_t handle, uint8_t byte)
{
    struct rafkudin_guid guid = guid_of(byte);
    uint64_t wanted = plain_handle_protocol(both->lists, handle, byte), value = 77;

    HOLDS(RafkudinHandleProtocol(both->core, handle, &guid, &value) == wanted);
    HOLDS(wanted == RAFKUDIN_SUCCESS
              ? are_returned(both, 0, &value, 1)
              : value == (wanted == RAFKUDIN_UNSUPPORTED ? 0 : 77));
    return wanted;
}

/* Whether an item of the library is one of the lists. */
static bool is_item(const struct rafkudin_item *item, const struct item *wanted)
{
    return item->agent == wanted->agent && item->controller == wanted->controller &&
           item->attributes == wanted->attributes && item->open_count == wanted->count;
}

/* Compares the items on an interface, as a list in the pool and one after the other. */
uint64_t both_information(struct both *both, uint64_t handle, uint8_t byte)
{
    static struct rafkudin_item items[16384];
    struct rafkudin_guid guid = guid_of(byte);
    uint64_t count = 0, address = 0, found = 0;
    uint64_t wanted = interface_of(both->lists, handle, byte) == NULL ? RAFKUDIN_NOT_FOUND
                                                                      : RAFKUDIN_SUCCESS;

    HOLDS(RafkudinOpenProtocolInformation(both->core, handle, &guid, &address, &count) == wanted);
    HOLDS(count <= COUNT(items));
    if (count <= COUNT(items))
        take_list(both, address, items, count * sizeof items[0]);
    for (size_t at = 0; at < both->lists->item_count; at++) {
        const struct item *item = &both->lists->items[at];
        struct rafkudin_item other = {0, 0, 0, 0};

        if (item->handle != handle || item->guid != byte)
            continue;
        HOLDS(found < count && is_item(&items[found], item));
        HOLDS(RafkudinOpenItem(both->core, handle, &guid, found, &other) == RAFKUDIN_SUCCESS);
        HOLDS(is_item(&other, item));
        found++;
    }
    HOLDS(found == count);
    HOLDS(RafkudinOpenItem(both->core, handle, &guid, found, &items[0]) == RAFKUDIN_NOT_FOUND);
    return wanted;
}

/* ---- Drivers ---- */

uint64_t both_connect(struct both *both, uint64_t handle, bool is_recursive)
{
    uint64_t wanted = plain_connect(both->lists, handle, is_recursive);

    HOLDS(RafkudinConnectController(both->core, handle, NULL, 0, is_recursive) == wanted);
    HOLDS(are_events(both, 0));
    return wanted;
}

uint64_t both_disconnect(struct both *both, uint64_t handle, uint64_t driver)
{
    uint64_t wanted = plain_disconnect(both->lists, handle, driver);

    HOLDS(RafkudinDisconnectController(both->core, handle, driver, 0) == wanted);
    return wanted;
}

/* ---- The whole state ---- */

/* How many interfaces, or open items, of each handle are compared already, by its number. */
static size_t seen[1 << 16];

static void see_none(const struct lists *lists)
{
    if (lists->last_number >= COUNT(seen))
        abort();
    memset(seen, 0, (lists->last_number + 1) * sizeof seen[0]);
}

/* Compares the interfaces on all handles, and their values. */
static void compare_interfaces(const struct both *both)
{
    const struct lists *lists = both->lists;
    struct rafkudin_interface interface;
    struct rafkudin_guid guids[16];
    uint64_t count = 0;

    see_none(lists);
    for (size_t at = 0; at < lists->interface_count; at++) {
        const struct interface *wanted = &lists->interfaces[at];
        size_t index = seen[wanted->handle]++;

        HOLDS(RafkudinInterface(both->core, wanted->handle, index, &interface) == RAFKUDIN_SUCCESS);
        HOLDS(is_guid(&interface.guid, wanted->guid) && interface.value == wanted->value);
        HOLDS(RafkudinProtocolsPerHandle(both->core, wanted->handle, guids, 16, &count) ==
              RAFKUDIN_SUCCESS);
        HOLDS(index < count && is_guid(&guids[index], wanted->guid));
    }
    for (size_t at = 0; at < lists->handle_count; at++) {
        uint64_t handle = lists->handles[at];

        HOLDS(RafkudinInterface(both->core, handle, seen[handle], &interface) ==
              RAFKUDIN_NOT_FOUND);
        HOLDS(RafkudinProtocolsPerHandle(both->core, handle, NULL, 0, &count) ==
              RAFKUDIN_BUFFER_TOO_SMALL);
        HOLDS(count == seen[handle]);
    }
}

/* Compares the items of each agent, one after the other. */
static void compare_items(const struct both *both)
{
    const struct lists *lists = both->lists;
    struct rafkudin_open open;

    see_none(lists);
    for (size_t at = 0; at < lists->item_count; at++) {
        const struct item *item = &lists->items[at];

        HOLDS(RafkudinAgentItem(both->core, item->agent, seen[item->agent]++, &open) ==
              RAFKUDIN_SUCCESS);
        HOLDS(open.handle == item->handle && is_guid(&open.guid, item->guid));
        HOLDS(open.agent == item->agent && open.controller == item->controller);
        HOLDS(open.attributes == item->attributes && open.open_count == item->count);
    }
    for (size_t at = 0; at < lists->handle_count; at++) {
        uint64_t agent = lists->handles[at];

        HOLDS(RafkudinAgentItem(both->core, agent, seen[agent], &open) == RAFKUDIN_NOT_FOUND);
    }
}

/* Whether the children of a pair are those that the lists returned. */
static bool are_children(const struct both *both, uint64_t controller, uint64_t agent)
{
    static uint64_t children[RAFKUDIN_MAX_HANDLES];
    uint64_t count = 0;

    return RafkudinChildren(both->core, controller, agent, children, COUNT(children), &count) ==
               RAFKUDIN_SUCCESS &&
           are_returned(both, 0, children, count);
}

static void compare_pair(struct both *both, struct pair pair)
{
    plain_children(both->lists, pair);
    HOLDS(are_children(both, pair.controller, pair.agent));
}

/* How many of the live handles are asked as agents; driver handles are the first ones. */
#define AGENTS 16U

/* Whether each of these agents has the children on a controller that the lists have: there may be
 * some, or none. */
static bool are_children_on(struct both *both, uint64_t controller, bool may_be)
{
    const struct lists *lists = both->lists;

    for (size_t at = 0; at < lists->handle_count && at < AGENTS; at++) {
        struct pair pair = {controller, lists->handles[at]};

        both->lists->number_count = 0;
        if (may_be)
            plain_children(both->lists, pair);
        if (!are_children(both, pair.controller, pair.agent))
            return false;
    }
    return true;
}

/* Compares the children of each pair that has some, and looks for others on all live handles. */
static void compare_children(struct both *both)
{
    const struct lists *lists = both->lists;

    see_none(lists);
    for (size_t at = 0; at < lists->made_count; at++) {
        seen[lists->made[at].by.controller]++;
        compare_pair(both, lists->made[at].by);
    }
    for (size_t at = 0; at < lists->item_count; at++) {
        const struct item *item = &lists->items[at];

        if (item->attributes == RAFKUDIN_BY_CHILD_CONTROLLER) {
            seen[item->handle]++;
            compare_pair(both, (struct pair){item->handle, item->agent});
        }
    }
    for (size_t at = 0; at < lists->handle_count; at++)
        HOLDS(are_children_on(both, lists->handles[at], seen[lists->handles[at]] > 0));
}

/* Compares whether each registration is still to be served, by a search without room for a handle,
 * which takes none. The key behind the last one is unknown. No question returns a mark: that is
 * compared by what the searches of `both_end` take. */
static void compare_registrations(struct both *both)
{
    for (uint64_t key = 0; key <= both->lists->registration_count + 1; key++)
        both_locate(both, RAFKUDIN_BY_REGISTER_NOTIFY, 1, key, 0);
}

void both_compare(struct both *both)
{
    both_locate(both, RAFKUDIN_ALL_HANDLES, 1, 0, RAFKUDIN_MAX_HANDLES * 8);
    compare_interfaces(both);
    compare_items(both);
    for (size_t at = 0; at < both->lists->item_count; at++)
        both_information(both, both->lists->items[at].handle, both->lists->items[at].guid);
    compare_children(both);
    compare_registrations(both);
}

void both_end(struct both *both)
{
    both_compare(both);
    for (uint64_t key = 1; key <= both->lists->registration_count; key++)
        while (both_locate(both, RAFKUDIN_BY_REGISTER_NOTIFY, 1, key, 8) == RAFKUDIN_SUCCESS)
            continue;
    RafkudinFree(both->core);
    free(both->lists);
}
