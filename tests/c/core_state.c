/* What core_state.h declares. */
#include "core_state.h"

#include "points.h"
#include "small_core.h"

#include <stdlib.h>
#include <string.h>

#define SUCCESS RAFKUDIN_SUCCESS

/* GUIDs of lower bytes are asked for their holders also where no handle carries them. */
#define BYTES 40U

static void push(struct state *state, uint64_t number)
{
    if (state->count == COUNT(state->numbers))
        abort();
    state->numbers[state->count++] = number;
}

static void push_guid(struct state *state, const struct rafkudin_guid *guid)
{
    uint64_t halves[2];

    memcpy(halves, guid->bytes, sizeof halves);
    push(state, halves[0]);
    push(state, halves[1]);
}

static void push_items(struct state *state, const struct rafkudin *core, uint64_t handle,
                       const struct rafkudin_guid *guid)
{
    struct rafkudin_item item;

    for (size_t at = 0; RafkudinOpenItem(core, handle, guid, at, &item) == SUCCESS; at++) {
        push(state, item.agent);
        push(state, item.controller);
        push(state, (uint64_t)item.attributes << 32 | item.open_count);
    }
}

/* A list that a question was answered with. */
static void push_list(struct state *state, uint64_t status, const uint64_t *list, uint64_t count)
{
    if (status != SUCCESS)
        HOLDS(!"a list is refused");
    push(state, count);
    if (COUNT(state->numbers) - state->count < count)
        abort();
    memcpy(state->numbers + state->count, list, count * sizeof *list);
    state->count += count;
}

/* The handles that carry a GUID. */
static void push_holders(struct state *state, const struct rafkudin *core,
                         const struct rafkudin_guid *guid)
{
    static uint64_t holders[RAFKUDIN_MAX_HANDLES];
    uint64_t count = 0;
    uint64_t status = RafkudinHoldersInto(core, guid, holders, COUNT(holders), &count);

    push_list(state, status, holders, count);
}

/* The interfaces on a handle with what is open on them, the holders of each GUID of which it is the
 * first, and what the handle has open itself. */
static void push_handle(struct state *state, const struct rafkudin *core, uint64_t handle)
{
    struct rafkudin_interface interface;
    struct rafkudin_open open;
    uint64_t first;

    push(state, handle);
    for (size_t at = 0; RafkudinInterface(core, handle, at, &interface) == SUCCESS; at++) {
        push_guid(state, &interface.guid);
        push(state, interface.value);
        push_items(state, core, handle, &interface.guid);
        if (RafkudinHolder(core, &interface.guid, 0, &first) == SUCCESS && first == handle)
            push_holders(state, core, &interface.guid);
    }
    for (size_t at = 0; RafkudinAgentItem(core, handle, at, &open) == SUCCESS; at++) {
        push(state, open.handle);
        push_guid(state, &open.guid);
        push(state, open.controller);
    }
}

/* The children that each pair of the first handles has: this takes memory. */
static void push_children(struct state *state, const struct rafkudin *core)
{
    static uint64_t children[RAFKUDIN_MAX_HANDLES];

    for (uint64_t controller = 1; controller < 10; controller++)
        for (uint64_t agent = 1; agent < 10; agent++) {
            uint64_t count = 0;
            uint64_t status = RafkudinChildren(core, controller, agent, children, COUNT(children),
                                               &count);

            push_list(state, status, children, count);
        }
}

/* Whether each registration is to be served a handle: a search without room takes none. */
static void push_registrations(struct state *state, struct rafkudin *core)
{
    uint64_t status = SUCCESS, size;

    for (uint64_t key = 1; status != RAFKUDIN_INVALID_PARAMETER; key++) {
        size = 0;
        status = RafkudinLocateHandle(core, RAFKUDIN_BY_REGISTER_NOTIFY, NULL, key, &size, NULL);
        push(state, status);
    }
}

void take_state(struct state *state, struct rafkudin *core)
{
    uint64_t handle;

    state->count = 0;
    for (size_t at = 0; RafkudinHandle(core, at, &handle) == SUCCESS; at++)
        push_handle(state, core, handle);
    for (uint8_t byte = 0; byte < BYTES; byte++) {
        struct rafkudin_guid guid = guid_of(byte);

        push_holders(state, core, &guid);
    }
    push_children(state, core);
    push_registrations(state, core);
}

/* Takes the handles that a registration is to be served; the answer is whether there is one of this
 * key. */
static bool has_served(struct state *state, struct rafkudin *core, uint64_t key)
{
    uint64_t status, handle, size;

    do {
        handle = 0;
        size = sizeof handle;
        status = RafkudinLocateHandle(core, RAFKUDIN_BY_REGISTER_NOTIFY, NULL, key, &size, &handle);
        push(state, handle);
    } while (status == SUCCESS);
    return status != RAFKUDIN_INVALID_PARAMETER;
}

void take_end(struct state *state, struct rafkudin *core)
{
    uint64_t key = 1;

    take_state(state, core);
    while (has_served(state, core, key))
        key++;
}

bool are_same(const struct state *one, const struct state *other)
{
    return one->count == other->count &&
           memcmp(one->numbers, other->numbers, one->count * sizeof one->numbers[0]) == 0;
}
