/* The lists of plain_lists.h without their drivers. */
#include "plain_lists.h"

#include "points.h"

#include <stdlib.h>

/* Ends the test where an array is full. */
static void need(bool has_room)
{
    if (!has_room)
        abort();
}

struct lists *lists_new(const struct plain_driver *drivers, size_t count)
{
    struct lists *lists = calloc(1, sizeof *lists);

    need(lists != NULL);
    lists->drivers = drivers;
    lists->driver_count = count;
    return lists;
}

void return_number(struct lists *lists, uint64_t number)
{
    need(lists->number_count < COUNT(lists->numbers));
    lists->numbers[lists->number_count++] = number;
}

bool is_live(const struct lists *lists, uint64_t handle)
{
    for (size_t at = 0; at < lists->handle_count; at++)
        if (lists->handles[at] == handle)
            return true;
    return false;
}

/* Whether a handle is given, and is not live. */
static bool is_dead(const struct lists *lists, uint64_t handle)
{
    return handle != 0 && !is_live(lists, handle);
}

const struct interface *interface_of(const struct lists *lists, uint64_t handle, uint8_t guid)
{
    for (size_t at = 0; at < lists->interface_count; at++)
        if (lists->interfaces[at].handle == handle && lists->interfaces[at].guid == guid)
            return &lists->interfaces[at];
    return NULL;
}

uint8_t first_guid(const struct lists *lists, uint64_t handle)
{
    for (size_t at = 0; at < lists->interface_count; at++)
        if (lists->interfaces[at].handle == handle)
            return lists->interfaces[at].guid;
    return 0;
}

uint64_t make_handle(struct lists *lists)
{
    need(lists->handle_count < COUNT(lists->handles));
    lists->handles[lists->handle_count++] = ++lists->last_number;
    return lists->last_number;
}

static void return_events(struct lists *lists, uint8_t guid)
{
    for (size_t at = 0; at < lists->registration_count; at++)
        if (lists->registrations[at].guid == guid)
            return_number(lists, lists->registrations[at].event);
}

void push_interface(struct lists *lists, uint64_t handle, uint8_t guid, uint64_t value)
{
    need(lists->interface_count < COUNT(lists->interfaces));
    lists->interfaces[lists->interface_count++] =
        (struct interface){handle, guid, value, ++lists->last_stamp};
    return_events(lists, guid);
}

void replace_value(struct lists *lists, uint64_t handle, uint8_t guid, uint64_t value)
{
    for (size_t at = 0; at < lists->interface_count; at++)
        if (lists->interfaces[at].handle == handle && lists->interfaces[at].guid == guid)
            lists->interfaces[at] = (struct interface){handle, guid, value, ++lists->last_stamp};
    return_events(lists, guid);
}

void push_item(struct lists *lists, const struct item *item)
{
    need(lists->item_count < COUNT(lists->items));
    lists->items[lists->item_count++] = *item;
}

void drop_handle(struct lists *lists, uint64_t handle)
{
    size_t handles = 0, made = 0, interfaces = 0, items = 0;

    for (size_t at = 0; at < lists->handle_count; at++)
        if (lists->handles[at] != handle)
            lists->handles[handles++] = lists->handles[at];
    for (size_t at = 0; at < lists->made_count; at++)
        if (lists->made[at].handle != handle)
            lists->made[made++] = lists->made[at];
    for (size_t at = 0; at < lists->interface_count; at++)
        if (lists->interfaces[at].handle != handle)
            lists->interfaces[interfaces++] = lists->interfaces[at];
    for (size_t at = 0; at < lists->item_count; at++)
        if (lists->items[at].handle != handle && lists->items[at].agent != handle &&
            lists->items[at].controller != handle)
            lists->items[items++] = lists->items[at];
    lists->handle_count = handles;
    lists->made_count = made;
    lists->interface_count = interfaces;
    lists->item_count = items;
}

void drop_items(struct lists *lists, uint64_t handle, uint8_t guid)
{
    size_t items = 0;

    for (size_t at = 0; at < lists->item_count; at++)
        if (lists->items[at].handle != handle || lists->items[at].guid != guid)
            lists->items[items++] = lists->items[at];
    lists->item_count = items;
}

void drop_interface(struct lists *lists, uint64_t handle, uint8_t guid)
{
    size_t interfaces = 0;

    for (size_t at = 0; at < lists->interface_count; at++)
        if (lists->interfaces[at].handle != handle || lists->interfaces[at].guid != guid)
            lists->interfaces[interfaces++] = lists->interfaces[at];
    lists->interface_count = interfaces;
    if (first_guid(lists, handle) == 0)
        drop_handle(lists, handle);
}

/* ---- Installations and registrations ---- */

/* Whether a GUID occurs twice among some, or is on the handle. */
static bool is_any_taken(const struct lists *lists, uint64_t handle, const struct named *named,
                         size_t count)
{
    for (size_t at = 0; at < count; at++) {
        if (interface_of(lists, handle, named[at].guid) != NULL)
            return true;
        for (size_t before = 0; before < at; before++)
            if (named[before].guid == named[at].guid)
                return true;
    }
    return false;
}

uint64_t plain_install(struct lists *lists, uint64_t handle, uint32_t kind,
                       const struct named *named, size_t count)
{
    lists->number_count = 0;
    if (kind != 0 || count == 0 || is_dead(lists, handle) ||
        is_any_taken(lists, handle, named, count))
        return RAFKUDIN_INVALID_PARAMETER;
    if (handle == 0 && lists->handle_count >= RAFKUDIN_MAX_HANDLES)
        return RAFKUDIN_OUT_OF_RESOURCES;
    if (handle == 0)
        handle = make_handle(lists);
    return_number(lists, handle);
    for (size_t at = 0; at < count; at++)
        push_interface(lists, handle, named[at].guid, named[at].value);
    return RAFKUDIN_SUCCESS;
}

uint64_t plain_register(struct lists *lists, uint8_t guid, uint64_t event)
{
    lists->number_count = 0;
    need(lists->registration_count < COUNT(lists->registrations));
    lists->registrations[lists->registration_count++] =
        (struct registration){guid, event, lists->last_stamp};
    return_number(lists, lists->registration_count);
    return RAFKUDIN_SUCCESS;
}

/* ---- Searches ---- */

/* The registration of a key, or null. */
static struct registration *registration_of(struct lists *lists, uint64_t key)
{
    return key == 0 || key > lists->registration_count ? NULL : &lists->registrations[key - 1];
}

/* The interface of a registration's GUID with the least stamp above its mark, or null. */
static const struct interface *next_of(const struct lists *lists,
                                       const struct registration *registration)
{
    const struct interface *least = NULL;

    for (size_t at = 0; at < lists->interface_count; at++) {
        const struct interface *interface = &lists->interfaces[at];

        if (interface->guid == registration->guid && interface->stamp > registration->mark &&
            (least == NULL || interface->stamp < least->stamp))
            least = interface;
    }
    return least;
}

/* What is returned of the handles that were found: the size where they are too many. */
static uint64_t fitted(struct lists *lists, uint64_t room)
{
    uint64_t size = lists->number_count * 8;

    if (size == 0)
        return RAFKUDIN_NOT_FOUND;
    if (room >= size)
        return RAFKUDIN_SUCCESS;
    lists->number_count = 0;
    return_number(lists, size);
    return RAFKUDIN_BUFFER_TOO_SMALL;
}

static uint64_t locate_next(struct lists *lists, uint64_t key, uint64_t room)
{
    struct registration *registration = registration_of(lists, key);
    const struct interface *found = registration == NULL ? NULL : next_of(lists, registration);

    if (registration == NULL)
        return RAFKUDIN_INVALID_PARAMETER;
    if (found == NULL)
        return RAFKUDIN_NOT_FOUND;
    if (room >= 8)
        registration->mark = found->stamp;
    return_number(lists, found->handle);
    return fitted(lists, room);
}

uint64_t plain_locate(struct lists *lists, uint32_t search, uint8_t guid, uint64_t key,
                      uint64_t room)
{
    lists->number_count = 0;
    if (search == RAFKUDIN_BY_REGISTER_NOTIFY)
        return locate_next(lists, key, room);
    if (search != RAFKUDIN_ALL_HANDLES && search != RAFKUDIN_BY_PROTOCOL)
        return RAFKUDIN_INVALID_PARAMETER;
    for (size_t at = 0; at < lists->handle_count; at++)
        if (search == RAFKUDIN_ALL_HANDLES || interface_of(lists, lists->handles[at], guid) != NULL)
            return_number(lists, lists->handles[at]);
    return fitted(lists, room);
}

/* The value of an interface alone is returned, or a refusal where there is none. */
static uint64_t return_value(struct lists *lists, const struct interface *found, uint64_t refusal)
{
    if (found == NULL)
        return refusal;
    return_number(lists, found->value);
    return RAFKUDIN_SUCCESS;
}

/* The interface of a GUID on the lowest handle that carries it, or null. */
static const struct interface *lowest_of(const struct lists *lists, uint8_t guid)
{
    const struct interface *found = NULL;

    for (size_t at = 0; at < lists->handle_count && found == NULL; at++)
        found = interface_of(lists, lists->handles[at], guid);
    return found;
}

uint64_t plain_locate_protocol(struct lists *lists, uint8_t guid, uint64_t key)
{
    struct registration *registration = registration_of(lists, key);
    const struct interface *found;

    lists->number_count = 0;
    if (key == 0)
        return return_value(lists, lowest_of(lists, guid), RAFKUDIN_NOT_FOUND);
    if (registration == NULL || registration->guid != guid)
        return RAFKUDIN_INVALID_PARAMETER;
    found = next_of(lists, registration);
    if (found != NULL)
        registration->mark = found->stamp;
    return return_value(lists, found, RAFKUDIN_NOT_FOUND);
}

uint64_t plain_protocols(struct lists *lists, uint64_t handle)
{
    lists->number_count = 0;
    if (!is_live(lists, handle))
        return RAFKUDIN_INVALID_PARAMETER;
    for (size_t at = 0; at < lists->interface_count; at++)
        if (lists->interfaces[at].handle == handle)
            return_number(lists, lists->interfaces[at].guid);
    return RAFKUDIN_SUCCESS;
}

uint64_t plain_handle_protocol(struct lists *lists, uint64_t handle, uint8_t guid)
{
    lists->number_count = 0;
    if (!is_live(lists, handle))
        return RAFKUDIN_INVALID_PARAMETER;
    return return_value(lists, interface_of(lists, handle, guid), RAFKUDIN_UNSUPPORTED);
}

/* ---- Opens ---- */

static bool is_known(uint32_t attributes)
{
    return attributes == 1 || attributes == 2 || attributes == 4 || attributes == 8 ||
           attributes == 0x10 || attributes == 0x20 || attributes == 0x30;
}

static bool needs_controller(uint32_t attributes)
{
    return attributes == 8 || attributes == 0x10 || attributes == 0x30;
}

/* Whether an open holds its interface: as a driver or exclusively. */
static bool is_holding(uint32_t attributes)
{
    return attributes == 0x10 || attributes == 0x20 || attributes == 0x30;
}

/* Whether an open names handles that it must not name. */
static bool names_badly(const struct lists *lists, const struct item *open)
{
    bool needs_agent = open->attributes == 0x20 || needs_controller(open->attributes);

    return !is_live(lists, open->handle) || is_dead(lists, open->agent) ||
           is_dead(lists, open->controller) || (open->agent == 0 && needs_agent) ||
           (open->controller == 0 && needs_controller(open->attributes)) ||
           (open->attributes == 8 && open->controller == open->handle);
}

static bool is_beside(const struct item *item, const struct item *other)
{
    return item->handle == other->handle && item->guid == other->guid;
}

static bool is_of_agent(const struct item *item, const struct item *other)
{
    return is_beside(item, other) && item->agent == other->agent &&
           item->attributes == other->attributes;
}

static bool is_twin(const struct item *item, const struct item *other)
{
    return is_of_agent(item, other) && item->controller == other->controller;
}

/* The refusal of an open by the other items on its interface. */
static uint64_t item_refusal(const struct lists *lists, const struct item *open)
{
    bool has_twin = false, has_of_agent = false, is_held = false;
    bool is_for_driver = open->attributes == 0x10 || open->attributes == 0x30;

    for (size_t at = 0; at < lists->item_count; at++) {
        const struct item *item = &lists->items[at];

        has_twin = has_twin || is_twin(item, open);
        has_of_agent = has_of_agent || is_of_agent(item, open);
        is_held = is_held || (is_beside(item, open) && is_holding(item->attributes));
    }
    if (is_for_driver && (has_twin || has_of_agent))
        return RAFKUDIN_ALREADY_STARTED;
    if (open->attributes == 0x20 && has_twin)
        return RAFKUDIN_ACCESS_DENIED;
    return !has_twin && is_holding(open->attributes) && is_held ? RAFKUDIN_ACCESS_DENIED
                                                                : RAFKUDIN_SUCCESS;
}

uint64_t open_refusal(const struct lists *lists, const struct item *open)
{
    if (!is_known(open->attributes) || names_badly(lists, open))
        return RAFKUDIN_INVALID_PARAMETER;
    if (interface_of(lists, open->handle, open->guid) == NULL)
        return RAFKUDIN_UNSUPPORTED;
    return item_refusal(lists, open);
}

/* Counts an open at its twin, or puts it at the end. */
static void add_open(struct lists *lists, const struct item *open)
{
    for (size_t at = 0; at < lists->item_count; at++)
        if (is_twin(&lists->items[at], open)) {
            lists->items[at].count++;
            return;
        }
    if (open->agent != 0)
        push_item(lists, open);
}

uint64_t plain_open(struct lists *lists, const struct item *open)
{
    uint64_t refusal;

    lists->number_count = 0;
    stop_for_open(lists, open);
    refusal = open_refusal(lists, open);
    if (refusal != RAFKUDIN_SUCCESS)
        return refusal;
    add_open(lists, open);
    if (open->attributes != RAFKUDIN_TEST_PROTOCOL)
        return_number(lists, interface_of(lists, open->handle, open->guid)->value);
    return RAFKUDIN_SUCCESS;
}

uint64_t plain_close(struct lists *lists, const struct item *closed)
{
    size_t before = lists->item_count;

    lists->number_count = 0;
    if (!is_live(lists, closed->handle) || !is_live(lists, closed->agent) ||
        is_dead(lists, closed->controller))
        return RAFKUDIN_INVALID_PARAMETER;
    lists->item_count = 0;
    for (size_t at = 0; at < before; at++) {
        const struct item *item = &lists->items[at];

        if (!is_beside(item, closed) || item->agent != closed->agent ||
            item->controller != closed->controller)
            lists->items[lists->item_count++] = *item;
    }
    return lists->item_count == before ? RAFKUDIN_NOT_FOUND : RAFKUDIN_SUCCESS;
}
