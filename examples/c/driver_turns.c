/* Drivers that are code, by the turns and the stops of rafkudin.h. Drawn drivers run on two cores:
 * on one as tables of RafkudinMake, by the services that start and stop them, and on the other as
 * code that this program calls in the order that the library says. Both have to come to the same
 * handles, interfaces, open items and events. Then a driver opens, makes children and fails half
 * way, in each order. Each point that is not as said is printed on standard error, and then the
 * status is 1. */
#include "driver_cores.h"
#include "points.h"

#include <stdio.h>
#include <stdlib.h>
#include <string.h>

#define DRIVERS 6U
#define MAX_DEPTH 8U

static struct rafkudin_driver tables[DRIVERS];

/* What a core has signaled since this was cleared. */
struct events {
    uint64_t list[4096];
    size_t count;
};

/* Whether drivers are stopped too. Then a driver that is code has its controller open for each of
 * its children, of which none is a driver handle, and nothing else is open so. */
static bool has_stops;

static uint64_t drawn = 1;

static unsigned draw(unsigned below)
{
    drawn ^= drawn << 13;
    drawn ^= drawn >> 7;
    drawn ^= drawn << 17;
    return (unsigned)(drawn >> 20) % below;
}

static void note_events(const struct rafkudin *core, struct events *events)
{
    size_t room = sizeof events->list / sizeof events->list[0] - events->count;
    size_t count = RafkudinEvents(core, events->list + events->count, room);

    HOLDS(count <= room);
    events->count += count <= room ? count : room;
}

/* ---- Drivers as code ---- */

/* Whether a driver supports a controller: each GUID that it needs is there and not held. */
static bool supports(struct rafkudin *core, const struct rafkudin_driver *driver, uint64_t handle)
{
    for (uint64_t i = 0; i < driver->needs_count; i++)
        if (!carries(core, handle, &driver->needs[i]) || is_held(core, handle, &driver->needs[i]))
            return false;
    return true;
}

static bool is_there_twice(const struct rafkudin_guid *guids, size_t stride, uint64_t count)
{
    for (uint64_t i = 0; i < count; i++)
        for (uint64_t k = 0; k < i; k++)
            if (memcmp((const uint8_t *)guids + i * stride, (const uint8_t *)guids + k * stride,
                       16) == 0)
                return true;
    return false;
}

static bool can_start(struct rafkudin *core, const struct rafkudin_driver *driver, uint64_t handle)
{
    if (driver->opens_count == 0 || is_there_twice(driver->opens, 16, driver->opens_count))
        return false;
    for (uint64_t i = 0; i < driver->opens_count; i++)
        if (!carries(core, handle, &driver->opens[i]) || is_held(core, handle, &driver->opens[i]))
            return false;
    for (uint64_t i = 0; i < driver->children_count; i++) {
        const struct rafkudin_child *child = &driver->children[i];

        if (child->count == 0 || is_there_twice(&child->interfaces[0].guid,
                                                sizeof child->interfaces[0], child->count))
            return false;
    }
    return true;
}

static bool start(struct rafkudin *core, const struct rafkudin_driver *driver, uint64_t agent,
                  uint64_t handle, struct events *events)
{
    if (!can_start(core, driver, handle))
        return false;
    for (uint64_t i = 0; i < driver->opens_count; i++) {
        uint64_t value = 0;

        HOLDS(RafkudinOpenProtocol(core, handle, &driver->opens[i], &value, agent, handle,
                                   RAFKUDIN_BY_DRIVER) == RAFKUDIN_SUCCESS);
    }
    for (uint64_t i = 0; i < driver->children_count; i++) {
        uint64_t child = 0;

        HOLDS(RafkudinInstallMultipleProtocolInterfaces(core, &child,
                                                        driver->children[i].interfaces,
                                                        driver->children[i].count) ==
              RAFKUDIN_SUCCESS);
        note_events(core, events);
        if (has_stops) {
            uint64_t value = 0;

            HOLDS(RafkudinOpenProtocol(core, handle, &driver->opens[0], &value, agent, child,
                                       RAFKUDIN_BY_CHILD_CONTROLLER) == RAFKUDIN_SUCCESS);
        }
    }
    return true;
}

/* All driver handles, ascending. */
static size_t bindings_of(struct rafkudin *core, struct rafkudin_binding *drivers)
{
    uint64_t handles[MAX_HANDLES];
    size_t count = handles_of(core, RAFKUDIN_BY_PROTOCOL, &driver_binding, handles), found = 0;

    for (size_t i = 0; i < count; i++) {
        uint64_t value = 0;

        if (RafkudinHandleProtocol(core, handles[i], &driver_binding, &value) ==
                RAFKUDIN_SUCCESS &&
            value < DRIVERS)
            drivers[found++] =
                (struct rafkudin_binding){handles[i], value, tables[value].version};
    }
    return found;
}

/* Whether there are more handles than this program looks at. */
static bool is_crowded(const struct rafkudin *core)
{
    uint64_t count = 0;

    return RafkudinHandlesInto(core, NULL, 0, &count) != RAFKUDIN_SUCCESS && count > MAX_HANDLES;
}

static uint64_t last_handle(struct rafkudin *core)
{
    uint64_t handles[MAX_HANDLES];
    size_t count = handles_of(core, RAFKUDIN_ALL_HANDLES, NULL, handles);

    return count == 0 ? 0 : handles[count - 1];
}

/* ConnectController as its caller carries it out: the drivers in their turns, and then the handles
 * that they made, one after the other, with all below each. */
static uint64_t connect_by_turns(struct rafkudin *core, uint64_t handle, const uint64_t *named,
                                 size_t named_count, unsigned depth, struct events *events)
{
    struct rafkudin_binding drivers[MAX_HANDLES], driver;
    struct rafkudin_turns turns;
    uint64_t made[MAX_HANDLES], before = last_handle(core), status;
    size_t count = bindings_of(core, drivers);
    bool is_any_carried_out = false;

    status = RafkudinConnectBegin(core, handle, named, named_count, drivers, count, &turns);
    if (status != RAFKUDIN_SUCCESS)
        return status;
    while (RafkudinConnectNext(&turns, drivers, count, &driver) == RAFKUDIN_SUCCESS) {
        bool is_supported = supports(core, &tables[driver.driver], handle);

        if (is_supported && start(core, &tables[driver.driver], driver.handle, handle, events))
            is_any_carried_out = true;
        RafkudinConnectRecord(&turns, drivers, count, is_supported);
    }
    count = depth == 1 ? 0 : handles_of(core, RAFKUDIN_ALL_HANDLES, NULL, made);
    for (size_t i = 0; i < count; i++)
        if (made[i] > before)
            connect_by_turns(core, made[i], NULL, 0, depth - 1, events);
    return is_any_carried_out ? RAFKUDIN_SUCCESS : RAFKUDIN_NOT_FOUND;
}

/* ---- Stops ---- */

/* How many lists of one driver were carried out and how many of more; and how many of all while a
 * driver was stopped. */
static unsigned stops_of_one, stops_of_more, nested_stops;

static bool stop(struct rafkudin *core, const struct rafkudin_stop *pair);

static bool stop_each(struct rafkudin *core, const struct rafkudin_stop *stops, uint64_t count)
{
    static unsigned depth;

    stops_of_one += count == 1;
    stops_of_more += count > 1;
    nested_stops += count > 0 && depth > 0;
    for (uint64_t i = 0; i < count; i++) {
        bool is_stopped;

        depth++;
        is_stopped = stop(core, &stops[i]);
        depth--;
        if (!is_stopped)
            return false;
    }
    return true;
}

/* Stops the drivers that have an interface open. */
static bool free_by_turns(struct rafkudin *core, uint64_t handle, const struct rafkudin_guid *guid)
{
    struct rafkudin_stop stops[MAX_HANDLES];
    uint64_t count = 0;

    return RafkudinStopsOnInterface(core, handle, guid, stops, MAX_HANDLES, &count) ==
               RAFKUDIN_SUCCESS &&
           stop_each(core, stops, count);
}

/* Stops the drivers that manage a controller, or one of them. */
static bool disconnect_by_turns(struct rafkudin *core, uint64_t controller, uint64_t driver)
{
    struct rafkudin_stop stops[MAX_HANDLES];
    uint64_t count = 0;

    return RafkudinStopsOnController(core, controller, driver, stops, MAX_HANDLES, &count) ==
               RAFKUDIN_SUCCESS &&
           stop_each(core, stops, count);
}

/* Whether a handle is that of a driver that lets itself be stopped. */
static bool can_stop(struct rafkudin *core, uint64_t agent)
{
    uint64_t value = 0;

    return RafkudinHandleProtocol(core, agent, &driver_binding, &value) == RAFKUDIN_SUCCESS &&
           value < DRIVERS && tables[value].stops;
}

/* A child goes with its interfaces, once the drivers that have them open are stopped. */
static bool take_out(struct rafkudin *core, uint64_t child)
{
    struct rafkudin_interface interface;

    while (RafkudinInterface(core, child, 0, &interface) == RAFKUDIN_SUCCESS)
        if (!free_by_turns(core, child, &interface.guid) ||
            RafkudinUninstallProtocolInterface(core, child, &interface.guid, interface.value) !=
                RAFKUDIN_SUCCESS)
            return false;
    return true;
}

/* Stop() of a driver on a controller: it closes all that it has open for it, but not what says whose
 * child it is, and then its children go, with the drivers on them. */
static bool stop(struct rafkudin *core, const struct rafkudin_stop *pair)
{
    uint64_t children[MAX_HANDLES], count = 0;
    struct rafkudin_open item;
    size_t index = 0;

    if (!can_stop(core, pair->agent) ||
        RafkudinChildren(core, pair->controller, pair->agent, children, MAX_HANDLES, &count) !=
            RAFKUDIN_SUCCESS)
        return false;
    while (RafkudinAgentItem(core, pair->agent, index, &item) == RAFKUDIN_SUCCESS) {
        if (item.controller != pair->controller ||
            item.attributes == RAFKUDIN_BY_CHILD_CONTROLLER)
            index++;
        else if (RafkudinCloseProtocol(core, item.handle, &item.guid, pair->agent,
                                       pair->controller) != RAFKUDIN_SUCCESS)
            return false;
    }
    for (uint64_t i = 0; i < count; i++)
        if (!disconnect_by_turns(core, children[i], 0))
            return false;
    for (uint64_t i = 0; i < count; i++)
        if (!take_out(core, children[i]))
            return false;
    return true;
}

/* ---- Drawn drivers ---- */

static void draw_tables(void)
{
    memset(tables, 0, sizeof tables);
    for (unsigned i = 0; i < DRIVERS; i++) {
        struct rafkudin_driver *driver = &tables[i];

        driver->version = draw(3);
        driver->stops = !has_stops || draw(6) != 0;
        driver->needs_count = draw(3);
        driver->opens_count = draw(8) == 0 ? 0 : 1 + draw(2);
        driver->children_count = draw(3);
        for (unsigned k = 0; k < 8; k++) {
            driver->needs[k] = protocol(draw(PROTOCOLS));
            driver->opens[k] = k < driver->needs_count && draw(4) != 0 ? driver->needs[k]
                                                                       : protocol(draw(PROTOCOLS));
            driver->children[k].count = draw(16) == 0 ? 0 : 1 + draw(2);
            for (unsigned m = 0; m < 4; m++) {
                driver->children[k].interfaces[m].guid =
                    draw(8) == 0 && !has_stops ? driver_binding : protocol(draw(PROTOCOLS));
                driver->children[k].interfaces[m].value = draw(DRIVERS);
            }
        }
    }
}

static bool are_same_events(const struct events *one, const struct events *two)
{
    return one->count == two->count && memcmp(one->list, two->list, one->count * 8) == 0;
}

/* Whether an agent has an interface open for a controller by driver. */
static bool is_driven_by(struct rafkudin *core, uint64_t handle, const struct rafkudin_guid *guid,
                         uint64_t agent, uint64_t controller)
{
    struct rafkudin_item item;

    for (size_t i = 0; RafkudinOpenItem(core, handle, guid, i, &item) == RAFKUDIN_SUCCESS; i++)
        if (item.agent == agent && item.controller == controller &&
            (item.attributes & RAFKUDIN_BY_DRIVER) != 0)
            return true;
    return false;
}

/* One step on both cores, the same: an interface, a connect, an open or a close. */
static bool try_step(struct rafkudin *by_tables, struct rafkudin *by_turns)
{
    static struct events events[2];
    struct rafkudin_guid guid = draw(3) == 0 ? driver_binding : protocol(draw(PROTOCOLS));
    uint64_t named[3], one = 0, two = 0, last = last_handle(by_tables), handle = draw(last + 2);
    uint64_t agent = draw(last + 2), value = draw(DRIVERS + 1), status;
    size_t named_count = draw(4);
    uint32_t attributes = 1U << draw(6);

    events[0].count = events[1].count = 0;
    for (size_t i = 0; i < named_count; i++)
        named[i] = draw(last + 2);
    switch (draw(8)) {
    case 0:
    case 1:
    case 2:
        one = two = draw(2) == 0 || (has_stops && memcmp(&guid, &driver_binding, 16) == 0) ? 0
                                                                                         : handle;
        status = RafkudinInstallProtocolInterface(by_tables, &one, &guid, 0, value);
        return RafkudinInstallProtocolInterface(by_turns, &two, &guid, 0, value) == status &&
               one == two;
    case 3:
        if ((attributes & RAFKUDIN_EXCLUSIVE) != 0 &&
            (has_stops || is_held(by_turns, handle, &guid)))
            return true;
        if (attributes == RAFKUDIN_BY_CHILD_CONTROLLER && has_stops)
            return true;
        status = RafkudinOpenProtocol(by_tables, handle, &guid, &one, agent, agent, attributes);
        return RafkudinOpenProtocol(by_turns, handle, &guid, &two, agent, agent, attributes) ==
                   status &&
               one == two;
    case 4:
        one = has_stops ? agent : handle;
        if (has_stops && is_driven_by(by_turns, handle, &guid, agent, one))
            return true;
        status = RafkudinCloseProtocol(by_tables, handle, &guid, agent, one);
        return RafkudinCloseProtocol(by_turns, handle, &guid, agent, one) == status;
    default: {
        bool recursive = draw(2) == 0;

        status = RafkudinConnectDrivers(by_tables, handle, named, named_count, recursive);
        if (is_crowded(by_tables))
            return true;
        note_events(by_tables, &events[0]);
        return connect_by_turns(by_turns, handle, named, named_count, recursive ? MAX_DEPTH : 1,
                                &events[1]) == status &&
               are_same_events(&events[0], &events[1]);
    }
    }
}

/* Finds an interface that a driver has open, from a drawn handle on. */
static bool draw_driven(struct rafkudin *core, uint64_t last, uint64_t *handle,
                        struct rafkudin_guid *guid)
{
    struct rafkudin_interface interface;
    uint64_t first = draw(last + 1);

    for (uint64_t i = 0; i <= last; i++) {
        *handle = (first + i) % (last + 1);
        for (size_t k = 0;
             RafkudinInterface(core, *handle, k, &interface) == RAFKUDIN_SUCCESS; k++) {
            *guid = interface.guid;
            if (is_held(core, *handle, guid))
                return true;
        }
    }
    return false;
}

/* An exclusive open on both cores, which is closed again. */
static bool try_exclusive(struct rafkudin *by_tables, struct rafkudin *by_turns, uint64_t handle,
                          const struct rafkudin_guid *guid, uint64_t agent)
{
    uint32_t attributes = RAFKUDIN_EXCLUSIVE | (draw(2) == 0 ? RAFKUDIN_BY_DRIVER : 0U);
    uint64_t one = 0, two = 0, status;

    status = RafkudinOpenProtocol(by_tables, handle, guid, &one, agent, agent, attributes);
    if (status == RAFKUDIN_SUCCESS && !free_by_turns(by_turns, handle, guid))
        return false;
    if (RafkudinOpenProtocol(by_turns, handle, guid, &two, agent, agent, attributes) != status ||
        one != two)
        return false;
    if (status != RAFKUDIN_SUCCESS)
        return true;
    status = RafkudinCloseProtocol(by_tables, handle, guid, agent, agent);
    return RafkudinCloseProtocol(by_turns, handle, guid, agent, agent) == status;
}

/* An uninstall or a reinstall on both cores. */
static bool try_removal(struct rafkudin *by_tables, struct rafkudin *by_turns, uint64_t handle,
                        const struct rafkudin_guid *guid)
{
    static struct events events[2];
    uint64_t old = draw(DRIVERS + 1), new = draw(DRIVERS + 1), status;
    bool is_uninstall = draw(2) == 0;

    events[0].count = events[1].count = 0;
    if (draw(8) != 0)
        RafkudinHandleProtocol(by_turns, handle, guid, &old);
    status = is_uninstall
                 ? RafkudinUninstallProtocolInterface(by_tables, handle, guid, old)
                 : RafkudinReinstallProtocolInterface(by_tables, handle, guid, old, new);
    if (is_crowded(by_tables))
        return true;
    note_events(by_tables, &events[0]);
    if (status == RAFKUDIN_SUCCESS && !free_by_turns(by_turns, handle, guid))
        return false;
    if (is_uninstall)
        return RafkudinUninstallProtocolInterface(by_turns, handle, guid, old) == status;
    if (RafkudinReinstallProtocolInterface(by_turns, handle, guid, old, new) != status)
        return false;
    note_events(by_turns, &events[1]);
    if (status == RAFKUDIN_SUCCESS)
        connect_by_turns(by_turns, handle, NULL, 0, MAX_DEPTH, &events[1]);
    return are_same_events(&events[0], &events[1]);
}

/* A service that stops drivers, on both cores: on one it stops them itself, on the other they are
 * stopped before it is called. What can't be stopped on the one is refused on both. */
static bool try_stop(struct rafkudin *by_tables, struct rafkudin *by_turns)
{
    struct rafkudin_guid guid = draw(8) == 0 ? driver_binding : protocol(draw(PROTOCOLS));
    uint64_t last = last_handle(by_tables), handle = draw(last + 2), other = draw(last + 2);
    uint64_t status;

    if (draw(4) != 0)
        draw_driven(by_turns, last, &handle, &guid);
    switch (draw(4)) {
    case 0:
        return try_exclusive(by_tables, by_turns, handle, &guid, other);
    case 1:
    case 2:
        return try_removal(by_tables, by_turns, handle, &guid);
    default:
        if (draw(4) != 0)
            other = 0;
        status = RafkudinDisconnectDrivers(by_tables, handle, other);
        if (status == RAFKUDIN_SUCCESS && !disconnect_by_turns(by_turns, handle, other))
            return false;
        return RafkudinDisconnectDrivers(by_turns, handle, other) == status;
    }
}

/* Installs all driver handles, and a controller that carries each protocol. */
static void install_all(struct rafkudin *core)
{
    struct rafkudin_interface interfaces[PROTOCOLS];
    uint64_t controller = 0;

    for (unsigned i = 0; i < DRIVERS; i++) {
        uint64_t handle = 0;

        HOLDS(RafkudinInstallProtocolInterface(core, &handle, &driver_binding, 0, i) ==
              RAFKUDIN_SUCCESS);
    }
    for (unsigned i = 0; i < PROTOCOLS; i++)
        interfaces[i] = (struct rafkudin_interface){protocol(i), i};
    HOLDS(RafkudinInstallMultipleProtocolInterfaces(core, &controller, interfaces, PROTOCOLS) ==
          RAFKUDIN_SUCCESS);
}

static void try_drawn(unsigned runs, bool stops)
{
    has_stops = stops;
    for (unsigned run = 0; run < runs; run++) {
        struct rafkudin *by_tables, *by_turns;
        bool is_same = true;

        draw_tables();
        by_tables = make_core(tables, DRIVERS);
        by_turns = make_core(NULL, 0);
        for (unsigned i = 0; i < PROTOCOLS; i++) {
            struct rafkudin_guid guid = protocol(i);
            uint64_t key = 0;

            RafkudinRegisterProtocolNotify(by_tables, &guid, 100 + i, &key);
            RafkudinRegisterProtocolNotify(by_turns, &guid, 100 + i, &key);
        }
        if (stops) {
            install_all(by_tables);
            install_all(by_turns);
        }
        for (unsigned step = 0; step < 24 && is_same && last_handle(by_tables) < 200; step++) {
            is_same = (has_stops && draw(3) == 0 ? try_stop : try_step)(by_tables, by_turns);
            if (is_crowded(by_tables))
                break;
            is_same = is_same && are_same(by_tables, by_turns, has_stops);
        }
        HOLDS(is_same);
        if (!is_same)
            fprintf(stderr, "driver_turns: the drivers of run %u\n", run);
        RafkudinFree(by_tables);
        RafkudinFree(by_turns);
    }
    has_stops = false;
}

/* ---- A start that fails half way ---- */

enum step { OPEN, FIRST_CHILD, SECOND_CHILD, STEPS };

static const enum step orders[6][STEPS] = {
    {OPEN, FIRST_CHILD, SECOND_CHILD}, {OPEN, SECOND_CHILD, FIRST_CHILD},
    {FIRST_CHILD, OPEN, SECOND_CHILD}, {SECOND_CHILD, OPEN, FIRST_CHILD},
    {FIRST_CHILD, SECOND_CHILD, OPEN}, {SECOND_CHILD, FIRST_CHILD, OPEN}};

/* A bus driver: it opens its bus, and makes two children, each open for it as a child. */
static void take_step(struct rafkudin *core, enum step step, uint64_t agent, uint64_t bus,
                      uint64_t *children)
{
    struct rafkudin_guid guid = protocol(0), child = protocol(step);
    uint64_t value = 0;

    if (step == OPEN) {
        HOLDS(RafkudinOpenProtocol(core, bus, &guid, &value, agent, bus, RAFKUDIN_BY_DRIVER) ==
              RAFKUDIN_SUCCESS);
        return;
    }
    children[step] = 0;
    HOLDS(RafkudinInstallProtocolInterface(core, &children[step], &child, 0, 7) ==
          RAFKUDIN_SUCCESS);
    HOLDS(RafkudinOpenProtocol(core, bus, &guid, &value, agent, children[step],
                               RAFKUDIN_BY_CHILD_CONTROLLER) == RAFKUDIN_SUCCESS);
}

static void undo_step(struct rafkudin *core, enum step step, uint64_t agent, uint64_t bus,
                      const uint64_t *children)
{
    struct rafkudin_guid guid = protocol(0), child = protocol(step);
    uint64_t controller = step == OPEN ? bus : children[step];

    HOLDS(RafkudinCloseProtocol(core, bus, &guid, agent, controller) == RAFKUDIN_SUCCESS);
    if (step != OPEN)
        HOLDS(RafkudinUninstallProtocolInterface(core, controller, &child, 7) == RAFKUDIN_SUCCESS);
}

static struct rafkudin *make_bus(uint64_t *handles)
{
    struct rafkudin *core = make_core(NULL, 0);
    struct rafkudin_guid guid = protocol(0);

    for (unsigned i = 0; i < 3; i++) {
        handles[i] = 0;
        HOLDS(RafkudinInstallProtocolInterface(core, &handles[i],
                                               i == 0 ? &guid : &driver_binding, 0,
                                               UINT64_MAX - i) == RAFKUDIN_SUCCESS);
    }
    return core;
}

/* What is to be stopped once the bus driver has taken some steps: itself where it has the bus open,
 * with the children that it has made so far. */
static void try_half_way(struct rafkudin *core, const uint64_t *handles, const enum step *order,
                         unsigned steps, const uint64_t *children)
{
    struct rafkudin_guid guid = protocol(0);
    struct rafkudin_stop stops[2] = {{0, 0}, {0, 0}};
    uint64_t found[STEPS] = {0}, count = 0, made = 0;
    bool is_open = false;

    HOLDS(RafkudinChildren(core, handles[0], handles[1], found, STEPS, &count) ==
          RAFKUDIN_SUCCESS);
    for (unsigned i = 0; i < steps; i++) {
        is_open |= order[i] == OPEN;
        if (order[i] != OPEN)
            HOLDS(found[made++] == children[order[i]]);
    }
    HOLDS(count == made);
    HOLDS(RafkudinChildren(core, handles[0], handles[1], NULL, 0, &count) ==
              (made == 0 ? RAFKUDIN_SUCCESS : RAFKUDIN_BUFFER_TOO_SMALL) &&
          count == made);
    HOLDS(RafkudinChildren(core, handles[0], handles[2], found, STEPS, &count) ==
              RAFKUDIN_SUCCESS &&
          count == 0);
    HOLDS(RafkudinStopsOnInterface(core, handles[0], &guid, stops, 2, &count) ==
              RAFKUDIN_SUCCESS &&
          count == is_open);
    HOLDS(!is_open || (stops[0].controller == handles[0] && stops[0].agent == handles[1]));
    HOLDS(RafkudinStopsOnController(core, handles[0], handles[1], stops + 1, 1, &count) ==
              RAFKUDIN_SUCCESS &&
          count == is_open);
    HOLDS(memcmp(&stops[0], &stops[1], sizeof stops[0]) == 0);
    HOLDS(RafkudinStopsOnController(core, handles[0], handles[2], stops, 2, &count) ==
              RAFKUDIN_SUCCESS &&
          count == 0);
}

/* The bus driver takes some steps and fails, with or without undoing them, or takes all. Beside it
 * is a driver of a lower version that supports a bus which is not held and changes nothing. */
static void try_start(const enum step *order, unsigned steps, bool undoes)
{
    uint64_t handles[3], fresh_handles[3], children[STEPS] = {0};
    struct rafkudin *core = make_bus(handles), *fresh = make_bus(fresh_handles);
    struct rafkudin_binding drivers[2] = {{handles[2], 1, 1}, {handles[1], 0, 2}}, driver;
    struct rafkudin_guid guid = protocol(0);
    struct rafkudin_turns turns;
    unsigned asked[2] = {0, 0}, started[2] = {0, 0};
    bool is_open = false;

    for (unsigned i = 0; i < steps; i++)
        is_open |= !undoes && order[i] == OPEN;
    HOLDS(RafkudinConnectBegin(core, handles[0], NULL, 0, drivers, 2, &turns) == RAFKUDIN_SUCCESS);
    while (RafkudinConnectNext(&turns, drivers, 2, &driver) == RAFKUDIN_SUCCESS) {
        bool is_supported = !is_held(core, handles[0], &guid);

        HOLDS(driver.handle == handles[driver.driver + 1]);
        HOLDS(driver.driver == 0 || asked[0] == 1);
        asked[driver.driver]++;
        started[driver.driver] += is_supported;
        for (unsigned i = 0; i < steps && driver.driver == 0; i++)
            take_step(core, order[i], driver.handle, handles[0], children);
        for (unsigned i = steps; i > 0 && driver.driver == 0 && undoes; i--)
            undo_step(core, order[i - 1], driver.handle, handles[0], children);
        RafkudinConnectRecord(&turns, drivers, 2, is_supported);
    }
    if (!undoes)
        try_half_way(core, handles, order, steps, children);
    for (unsigned i = steps; i > 0 && !undoes; i--)
        undo_step(core, order[i - 1], handles[1], handles[0], children);
    try_half_way(core, handles, order, 0, children);
    HOLDS(asked[0] == 1 && started[0] == 1);
    HOLDS(asked[1] == (is_open ? 2U : 1U) && started[1] == (is_open ? 0U : 1U));
    HOLDS(are_same(core, fresh, false));
    RafkudinConnectRecord(&turns, drivers, 2, true);
    HOLDS(RafkudinConnectNext(&turns, drivers, 2, &driver) == RAFKUDIN_NOT_FOUND);
    RafkudinFree(core);
    RafkudinFree(fresh);
}

/* ---- Lists of drivers ---- */

static void try_lists(void)
{
    uint64_t handles[3], named[17] = {0};
    struct rafkudin *core = make_bus(handles);
    struct rafkudin_binding drivers[3] = {
        {handles[0], 5, 9}, {handles[1], 6, 1}, {handles[2], 7, 1}};
    struct rafkudin_binding driver = {0, 0, 0};
    struct rafkudin_turns turns = {0, 0, 0, false};

    HOLDS(RafkudinConnectBegin(core, 99, NULL, 0, drivers, 3, &turns) ==
          RAFKUDIN_INVALID_PARAMETER);
    HOLDS(RafkudinConnectBegin(core, handles[0], named, 17, drivers, 3, &turns) ==
          RAFKUDIN_INVALID_PARAMETER);
    HOLDS(drivers[0].handle == handles[0] && turns.end == 0);
    HOLDS(RafkudinConnectNext(&turns, drivers, 3, &driver) == RAFKUDIN_NOT_FOUND);
    named[0] = named[2] = handles[2];
    HOLDS(RafkudinConnectBegin(core, handles[0], named, 16, drivers, 3, &turns) ==
          RAFKUDIN_SUCCESS);
    HOLDS(RafkudinConnectNext(&turns, drivers, 3, &driver) == RAFKUDIN_SUCCESS);
    HOLDS(driver.handle == handles[2] && driver.driver == 7 && driver.version == 1);
    RafkudinConnectRecord(&turns, drivers, 3, false);
    HOLDS(RafkudinConnectNext(&turns, drivers, 3, &driver) == RAFKUDIN_SUCCESS);
    HOLDS(driver.handle == handles[1] && driver.driver == 6);
    RafkudinConnectRecord(&turns, drivers, 3, false);
    HOLDS(RafkudinConnectNext(&turns, drivers, 3, &driver) == RAFKUDIN_NOT_FOUND);
    HOLDS(driver.handle == handles[1]);
    turns.end = turns.left = SIZE_MAX;
    HOLDS(RafkudinConnectNext(&turns, drivers, 3, &driver) == RAFKUDIN_NOT_FOUND);
    RafkudinConnectRecord(&turns, drivers, 3, false);
    HOLDS(turns.left == SIZE_MAX);
    RafkudinFree(core);
}

/* ---- Drivers of RafkudinMake ---- */

/* Three drivers, each on the child of the one before it: the one on the last child is stopped
 * first. */
static void try_made(void)
{
    uint64_t handles[4] = {0}, bus = 0, child = 0, count = 0;
    struct rafkudin_stop stops[3] = {{7, 7}, {7, 7}, {7, 7}};
    struct rafkudin_guid guid = protocol(0);
    struct rafkudin *core;

    memset(tables, 0, sizeof tables);
    for (unsigned i = 0; i < 3; i++) {
        tables[i].stops = true;
        tables[i].needs_count = tables[i].opens_count = tables[i].children_count = 1;
        tables[i].needs[0] = tables[i].opens[0] = protocol(i);
        tables[i].children[0].count = 1;
        tables[i].children[0].interfaces[0].guid = protocol(i + 1);
    }
    core = make_core(tables, 3);
    for (unsigned i = 0; i < 3; i++)
        HOLDS(RafkudinInstallProtocolInterface(core, &handles[i], &driver_binding, 0, i) ==
              RAFKUDIN_SUCCESS);
    HOLDS(RafkudinInstallProtocolInterface(core, &bus, &guid, 0, 7) == RAFKUDIN_SUCCESS);
    HOLDS(RafkudinConnectDrivers(core, bus, NULL, 0, true) == RAFKUDIN_SUCCESS);
    HOLDS(RafkudinStopsOnController(core, bus, 0, stops, 2, &count) ==
              RAFKUDIN_BUFFER_TOO_SMALL &&
          count == 3 && stops[0].controller == 7);
    HOLDS(RafkudinStopsOnInterface(core, bus, &guid, stops, 3, &count) == RAFKUDIN_SUCCESS &&
          count == 3);
    for (uint64_t i = 0; i < 3; i++) {
        HOLDS(stops[i].controller == bus + 2 - i && stops[i].agent == handles[2 - i]);
        HOLDS(RafkudinChildren(core, stops[i].controller, stops[i].agent, &child, 1, &count) ==
                  RAFKUDIN_SUCCESS &&
              count == 1 && child == stops[i].controller + 1);
    }
    HOLDS(RafkudinDisconnectDrivers(core, bus, 0) == RAFKUDIN_SUCCESS);
    HOLDS(RafkudinStopsOnController(core, bus, 0, NULL, 0, &count) == RAFKUDIN_SUCCESS &&
          count == 0);
    RafkudinFree(core);
}

int main(void)
{
    try_lists();
    try_made();
    for (unsigned i = 0; i < 6; i++)
        for (unsigned steps = 0; steps <= STEPS; steps++)
            for (unsigned undoes = 0; undoes < 2; undoes++)
                try_start(orders[i], steps, undoes != 0);
    try_drawn(400, false);
    try_drawn(800, true);
    HOLDS(stops_of_one >= 800 && stops_of_more >= 80 && nested_stops >= 400);
    return points_end("driver_turns");
}
