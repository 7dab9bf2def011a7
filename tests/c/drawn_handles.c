/* Drawn calls of the services on handles, each compared with plain lists: its status, and all that
 * it returns, with the events that it signals. First on cores without drivers; then on one handle,
 * with up to 20 open items; then on full cores and on small ones, on which drivers start, make
 * children and stop. There a connect goes down to the eighth level or not below its handle, and a
 * reinstallation stops drivers and starts them again. All handles, interfaces, open items, children
 * and registrations are compared too: on the full cores every 250 calls, on the small ones after
 * each stop that is refused, and at the end of each core, where each registration is served to its
 * end. Of each service and status a least number of calls is wanted, and of each reason for which a
 * stop is refused. Each point that does not hold is printed on standard error, and then the status
 * is 1. */
#include "both_calls.h"
#include "draws.h"
#include "points.h"
#include "tallies.h"

#include <stdlib.h>

#define GUIDS 5U

/* ---- What is drawn ---- */

static uint8_t draw_guid(struct both *both)
{
    return (uint8_t)(draw_below(&both->seed, GUIDS) + 1);
}

/* 0, a handle of those that were given, or one of the two numbers behind them. */
static uint64_t draw_handle(struct both *both)
{
    return draw_below(&both->seed, both->lists->handle_count + 3);
}

/* One of the first handles, which are named most often, or any. */
static uint64_t low_handle(struct both *both)
{
    return one_of(&both->seed, 4) ? draw_handle(both) : draw_below(&both->seed, 6);
}

/* 0, a key that was given, or one of the two behind them. */
static uint64_t draw_key(struct both *both)
{
    return draw_below(&both->seed, both->lists->registration_count + 3);
}

/* ---- Calls without drivers ---- */

/* The handle to install on, often a new one, of at most 38. */
static uint64_t draw_target(struct both *both)
{
    uint64_t handle = one_of(&both->seed, 4) ? 0 : draw_handle(both);

    return handle == 0 && both->lists->handle_count >= 38 ? 1 : handle;
}

static struct named draw_named(struct both *both)
{
    struct named named;

    named.guid = draw_guid(both);
    named.value = draw(&both->seed);
    return named;
}

static uint64_t install(struct both *both)
{
    uint64_t handle = draw_target(both);
    struct named named = {.guid = draw_guid(both)};
    uint32_t kind = one_of(&both->seed, 8);

    named.value = draw(&both->seed);
    return both_install(both, handle, kind, named);
}

/* An interface by its value, now and then by another; on a handle that lacks the GUID, by a low
 * number. */
static struct named named_on(struct both *both, uint64_t handle, uint8_t guid)
{
    const struct interface *interface = interface_of(both->lists, handle, guid);
    uint64_t value = interface == NULL ? 0 : interface->value;

    return (struct named){guid, value + one_of(&both->seed, 16)};
}

/* Replaces the value of an interface by a low number, which may be the index of a driver. */
static uint64_t reinstall(struct both *both, const struct item *item)
{
    struct named named = named_on(both, item->handle, item->guid);

    return both_reinstall(both, item->handle, named, draw_below(&both->seed, 8));
}

/* Up to three interfaces, in which a GUID may occur twice. */
static uint64_t install_many(struct both *both)
{
    struct named named[3];
    uint64_t handle = draw_target(both);
    size_t count = draw_below(&both->seed, 4);

    for (size_t at = 0; at < count; at++)
        named[at] = draw_named(both);
    return both_install_many(both, handle, named, count);
}

static uint64_t register_one(struct both *both)
{
    uint8_t byte = draw_guid(both);

    return both_register(both, byte, draw_below(&both->seed, 8));
}

/* A size of a buffer: large, just enough for a number of handles, or a byte too small. */
static uint64_t draw_room(struct both *both)
{
    uint64_t room = draw(&both->seed) % 40 * 8;

    switch (draw(&both->seed) % 6) {
    case 0:
        return room;
    case 1:
        return room + 7;
    case 2:
        return 8;
    case 3:
        return 7;
    default:
        return 1000;
    }
}

static uint64_t locate(struct both *both, uint32_t search)
{
    uint8_t byte = draw_guid(both);
    uint64_t key = draw_key(both);

    return both_locate(both, search, byte, key, draw_room(both));
}

static uint64_t locate_buffer(struct both *both)
{
    static const uint32_t searches[16] = {0, 0, 0, 0, 0, 1, 1, 1, 1, 1, 2, 2, 2, 2, 2, 3};
    uint32_t search = searches[draw(&both->seed) % 16];
    uint8_t byte = draw_guid(both);

    return both_locate_buffer(both, search, byte, draw_key(both));
}

static uint64_t locate_protocol(struct both *both)
{
    uint64_t key = draw_key(both);
    uint8_t byte = draw_guid(both);

    if (one_of(&both->seed, 2) && key != 0 && key <= both->lists->registration_count)
        byte = both->lists->registrations[key - 1].guid;
    return both_locate_protocol(both, byte, key);
}

/* The attributes that are drawn where there are no drivers; two of them are none. */
static uint32_t draw_attributes(struct both *both)
{
    static const uint32_t attributes[12] = {1,    2,    4,    8,    8, 0x10,
                                            0x10, 0x10, 0x20, 0x30, 0, 0x18};

    return attributes[draw(&both->seed) % 12];
}

/* An open that was served, or another, as often. */
static struct item known_open(struct both *both)
{
    size_t at = draw_below(&both->seed, both->lists->item_count);
    struct item open;

    if (both->lists->item_count != 0 && one_of(&both->seed, 2))
        return both->lists->items[at];
    open.handle = low_handle(both);
    open.guid = draw_guid(both);
    open.agent = low_handle(both);
    open.controller = low_handle(both);
    open.attributes = draw_attributes(both);
    open.count = 1;
    return open;
}

/* An open as one that was served, but in some of its parts. */
static uint64_t open_one(struct both *both)
{
    struct item open = known_open(both);

    open.count = 1;
    if (one_of(&both->seed, 2))
        open.attributes = draw_attributes(both);
    if (one_of(&both->seed, 4))
        open.agent = low_handle(both);
    if (one_of(&both->seed, 4))
        open.controller = low_handle(both);
    return both_open(both, &open);
}

static uint64_t close_one(struct both *both)
{
    struct item closed = known_open(both);

    return both_close(both, &closed);
}

static uint64_t handle_protocol(struct both *both)
{
    uint64_t handle = draw_handle(both);

    return both_handle_protocol(both, handle, draw_guid(both));
}

static uint64_t information(struct both *both)
{
    struct item open = known_open(both);

    return both_information(both, open.handle, open.guid);
}

/* ---- Cores without drivers ---- */

/* Each service, the more often the oftener it is drawn. */
static const enum service plain_services[] = {
    INSTALL,        INSTALL,     INSTALL,       INSTALL_MANY,    INSTALL_MANY,
    REINSTALL,      REGISTER,    LOCATE_ALL,    LOCATE_NEXT,     LOCATE_NEXT,
    LOCATE_HOLDERS, LOCATE_NONE, LOCATE_BUFFER, LOCATE_PROTOCOL, LOCATE_PROTOCOL,
    PROTOCOLS,      OPEN,        OPEN,          OPEN,            OPEN,
    OPEN,           OPEN,        CLOSE,         HANDLE_PROTOCOL, INFORMATION,
};

static uint64_t serve(struct both *both, enum service service)
{
    struct item item;

    switch (service) {
    case INSTALL:
        return install(both);
    case INSTALL_MANY:
        return install_many(both);
    case REINSTALL:
        item = known_open(both);
        return reinstall(both, &item);
    case REGISTER:
        return register_one(both);
    case LOCATE_ALL:
    case LOCATE_NEXT:
    case LOCATE_HOLDERS:
    case LOCATE_NONE:
        return locate(both, service - LOCATE_ALL);
    case LOCATE_BUFFER:
        return locate_buffer(both);
    case LOCATE_PROTOCOL:
        return locate_protocol(both);
    case PROTOCOLS:
        return both_protocols(both, draw_handle(both));
    case OPEN:
        return open_one(both);
    case CLOSE:
        return close_one(both);
    case HANDLE_PROTOCOL:
        return handle_protocol(both);
    case INFORMATION:
        return information(both);
    default:
        abort();
    }
}

/* How many machines there are, and how many calls are made on each. */
#define MACHINES 100U
#define CALLS 520U

/* The least of each that is wanted of ten machines. */
static const struct least least_plain[] = {
    {INSTALL, RAFKUDIN_SUCCESS, 200},
    {INSTALL, RAFKUDIN_INVALID_PARAMETER, 200},
    {INSTALL_MANY, RAFKUDIN_SUCCESS, 100},
    {INSTALL_MANY, RAFKUDIN_INVALID_PARAMETER, 200},
    {REINSTALL, RAFKUDIN_SUCCESS, 28},
    {REINSTALL, RAFKUDIN_INVALID_PARAMETER, 28},
    {REINSTALL, RAFKUDIN_NOT_FOUND, 30},
    {REINSTALL, RAFKUDIN_ACCESS_DENIED, 52},
    {REGISTER, RAFKUDIN_SUCCESS, 150},
    {LOCATE_ALL, RAFKUDIN_SUCCESS, 60},
    {LOCATE_ALL, RAFKUDIN_BUFFER_TOO_SMALL, 60},
    {LOCATE_NEXT, RAFKUDIN_SUCCESS, 100},
    {LOCATE_NEXT, RAFKUDIN_NOT_FOUND, 50},
    {LOCATE_NEXT, RAFKUDIN_BUFFER_TOO_SMALL, 20},
    {LOCATE_NEXT, RAFKUDIN_INVALID_PARAMETER, 100},
    {LOCATE_HOLDERS, RAFKUDIN_SUCCESS, 100},
    {LOCATE_HOLDERS, RAFKUDIN_NOT_FOUND, 10},
    {LOCATE_HOLDERS, RAFKUDIN_BUFFER_TOO_SMALL, 40},
    {LOCATE_NONE, RAFKUDIN_INVALID_PARAMETER, 100},
    {LOCATE_BUFFER, RAFKUDIN_SUCCESS, 100},
    {LOCATE_BUFFER, RAFKUDIN_NOT_FOUND, 15},
    {LOCATE_BUFFER, RAFKUDIN_INVALID_PARAMETER, 20},
    {LOCATE_PROTOCOL, RAFKUDIN_SUCCESS, 100},
    {LOCATE_PROTOCOL, RAFKUDIN_NOT_FOUND, 40},
    {LOCATE_PROTOCOL, RAFKUDIN_INVALID_PARAMETER, 100},
    {PROTOCOLS, RAFKUDIN_SUCCESS, 100},
    {PROTOCOLS, RAFKUDIN_INVALID_PARAMETER, 30},
    {OPEN, RAFKUDIN_SUCCESS, 300},
    {OPEN, RAFKUDIN_INVALID_PARAMETER, 300},
    {OPEN, RAFKUDIN_UNSUPPORTED, 100},
    {OPEN, RAFKUDIN_ALREADY_STARTED, 40},
    {OPEN, RAFKUDIN_ACCESS_DENIED, 60},
    {CLOSE, RAFKUDIN_SUCCESS, 40},
    {CLOSE, RAFKUDIN_INVALID_PARAMETER, 40},
    {CLOSE, RAFKUDIN_NOT_FOUND, 50},
    {HANDLE_PROTOCOL, RAFKUDIN_SUCCESS, 40},
    {HANDLE_PROTOCOL, RAFKUDIN_INVALID_PARAMETER, 30},
    {HANDLE_PROTOCOL, RAFKUDIN_UNSUPPORTED, 60},
    {INFORMATION, RAFKUDIN_SUCCESS, 80},
    {INFORMATION, RAFKUDIN_NOT_FOUND, 60},
};

static void draw_without_drivers(void)
{
    for (uint64_t seed = 0; seed < MACHINES; seed++) {
        struct both both = {small_core(NULL, 0), lists_new(NULL, 0), seed};

        for (unsigned call = 0; call < CALLS; call++) {
            enum service service = plain_services[draw(&both.seed) % COUNT(plain_services)];

            tally(service, serve(&both, service));
        }
        both_end(&both);
        if (seed == 9)
            try_least(least_plain, COUNT(least_plain));
    }
    tallies_clear();
}

/* ---- Many items on one handle ---- */

#define MOST_ITEMS 20U

/* An item on the first handle, of one of the other handles as the agent and one as the controller. */
static struct item draw_on_first(struct both *both)
{
    return (struct item){1,
                         1,
                         draw_below(&both->seed, MOST_ITEMS) + 2,
                         draw_below(&both->seed, 3) + 1,
                         RAFKUDIN_GET_PROTOCOL,
                         1};
}

/* Opens and closes on one handle, in drawn order. Mostly opens until there are as many items as
 * there may be, then mostly closes until there is none, and so on. After each call all items are
 * compared. */
static void draw_on_one(uint64_t seed)
{
    struct both both = {small_core(NULL, 0), lists_new(NULL, 0), seed};
    const struct lists *lists = both.lists;
    unsigned turns = 0;
    bool grows = true;

    for (uint64_t number = 0; number < MOST_ITEMS + 2; number++)
        both_install(&both, 0, 0, (struct named){1, number});
    while (turns < 8) {
        bool opens = lists->item_count == 0 || one_of(&both.seed, 4) != grows;
        struct item item = opens ? draw_on_first(&both)
                                 : lists->items[draw_below(&both.seed, lists->item_count)];

        if (opens)
            both_open(&both, &item);
        else
            both_close(&both, &item);
        both_compare(&both);
        if (lists->item_count == (grows ? MOST_ITEMS : 0)) {
            grows = !grows;
            turns++;
        }
    }
    both_end(&both);
}

/* ---- Cores with drivers ---- */

/* The first one's child carries what the second opens, whose child carries what the third opens.
 * The last one's child carries what the driver opens itself. */
static const struct plain_driver drivers[] = {
    {3, 1, 2, true}, {4, 2, 3, true}, {1, 3, 0, true}, {1, 4, 1, false}, {2, 5, 5, true}};

/* The indices of drivers that handles carry, the last of which is of none. */
static const uint64_t bindings[] = {0, 1, 2, 3, 0, 1, 4, 5};

/* Each service, the more often the oftener it is drawn. */
static const enum service driver_services[] = {
    INSTALL,   INSTALL,     INSTALL,     UNINSTALL,   UNINSTALL,
    UNINSTALL, REINSTALL,   REINSTALL,   LOCATE_NEXT, OPEN,
    OPEN,      OPEN,        OPEN,        CLOSE,       CONNECT,
    CONNECT,   CONNECT_ALL, CONNECT_ALL, DISCONNECT,  DISCONNECT,
};

/* The least of each that is wanted of 2,500 calls on a full core. */
static const struct least least_many[] = {
    {INSTALL, RAFKUDIN_SUCCESS, 100},
    {INSTALL, RAFKUDIN_INVALID_PARAMETER, 30},
    {INSTALL, RAFKUDIN_OUT_OF_RESOURCES, 100},
    {UNINSTALL, RAFKUDIN_SUCCESS, 45},
    {UNINSTALL, RAFKUDIN_INVALID_PARAMETER, 12},
    {UNINSTALL, RAFKUDIN_NOT_FOUND, 90},
    {UNINSTALL, RAFKUDIN_ACCESS_DENIED, 85},
    {REINSTALL, RAFKUDIN_SUCCESS, 39},
    {REINSTALL, RAFKUDIN_INVALID_PARAMETER, 9},
    {REINSTALL, RAFKUDIN_NOT_FOUND, 68},
    {REINSTALL, RAFKUDIN_ACCESS_DENIED, 46},
    {LOCATE_NEXT, RAFKUDIN_SUCCESS, 39},
    {LOCATE_NEXT, RAFKUDIN_INVALID_PARAMETER, 33},
    {LOCATE_NEXT, RAFKUDIN_BUFFER_TOO_SMALL, 9},
    {OPEN, RAFKUDIN_SUCCESS, 120},
    {OPEN, RAFKUDIN_INVALID_PARAMETER, 58},
    {OPEN, RAFKUDIN_ALREADY_STARTED, 16},
    {OPEN, RAFKUDIN_ACCESS_DENIED, 69},
    {CLOSE, RAFKUDIN_SUCCESS, 36},
    {CLOSE, RAFKUDIN_NOT_FOUND, 31},
    {CONNECT, RAFKUDIN_SUCCESS, 47},
    {CONNECT, RAFKUDIN_INVALID_PARAMETER, 21},
    {CONNECT, RAFKUDIN_NOT_FOUND, 96},
    {CONNECT_ALL, RAFKUDIN_SUCCESS, 49},
    {CONNECT_ALL, RAFKUDIN_INVALID_PARAMETER, 23},
    {CONNECT_ALL, RAFKUDIN_NOT_FOUND, 104},
    {DISCONNECT, RAFKUDIN_SUCCESS, 110},
    {DISCONNECT, RAFKUDIN_INVALID_PARAMETER, 40},
    {DISCONNECT, RAFKUDIN_DEVICE_ERROR, 13},
};

/* The table driver that a plain one is. */
static struct rafkudin_driver table_of(const struct plain_driver *plain)
{
    struct rafkudin_driver table = driver_for(plain->version, plain->opens, plain->opens);

    table.stops = plain->stops;
    if (plain->child != 0)
        add_child(&table, plain->child, CHILD_VALUE);
    return table;
}

/* A core with the drivers, a handle for each binding, a number of handles that carry one of five
 * GUIDs, and an event for each of these. */
static struct both begin(uint64_t seed, uint64_t handles)
{
    struct rafkudin_driver tables[COUNT(drivers)];
    struct both both = {NULL, lists_new(drivers, COUNT(drivers)), seed};

    for (size_t at = 0; at < COUNT(drivers); at++)
        tables[at] = table_of(&drivers[at]);
    both.core = small_core(tables, COUNT(drivers));
    for (size_t at = 0; at < COUNT(bindings); at++)
        both_install(&both, 0, 0, (struct named){BINDING, bindings[at]});
    for (uint64_t number = 0; number < handles; number++)
        both_install(&both, 0, 0, (struct named){(uint8_t)(number % GUIDS + 1), number});
    for (uint8_t byte = 1; byte <= GUIDS; byte++)
        both_register(&both, byte, byte);
    return both;
}

/* A live handle: mostly one of 32 that are spread over all, else any. */
static uint64_t live_handle(struct both *both)
{
    size_t count = both->lists->handle_count;
    size_t at = one_of(&both->seed, 8) ? draw_below(&both->seed, count)
                                       : draw_below(&both->seed, 32) * (count / 32);

    return at < count ? both->lists->handles[at] : 0;
}

/* A live handle, 0, or one behind all that were given. */
static uint64_t any_handle(struct both *both)
{
    switch (draw_below(&both->seed, 16)) {
    case 0:
        return 0;
    case 1:
        return both->lists->last_number + 1;
    default:
        return live_handle(both);
    }
}

/* A driver handle, or any. */
static uint64_t draw_agent(struct both *both)
{
    return one_of(&both->seed, 3) ? any_handle(both) : draw_below(&both->seed, COUNT(bindings) + 1);
}

/* An interface that is open, or one of a handle's; the rest of the item is not set. */
static struct item draw_interface(struct both *both)
{
    size_t at = draw_below(&both->seed, both->lists->item_count);
    struct item item = {0};

    if (both->lists->item_count != 0 && one_of(&both->seed, 2))
        return both->lists->items[at];
    item.handle = any_handle(both);
    item.guid = draw_guid(both);
    return item;
}

/* An item between a handle that a driver made and its controller: the driver's own on the handle,
 * by which a stop would take the handle of the call, or an exclusive one of the handle on its
 * controller, by which it would take the opener. */
static struct item item_of_family(struct both *both, const struct made *made)
{
    struct item item = {made->handle,
                        first_guid(both->lists, made->handle),
                        made->by.agent,
                        made->by.controller,
                        RAFKUDIN_BY_DRIVER,
                        1};

    if (one_of(&both->seed, 2))
        return item;
    item.handle = made->by.controller;
    item.guid = first_guid(both->lists, made->by.controller);
    item.agent = draw_agent(both);
    item.controller = made->handle;
    item.attributes = RAFKUDIN_EXCLUSIVE;
    return item;
}

static struct item draw_item(struct both *both)
{
    static const uint32_t attributes[8] = {1, 2, 8, 8, 0x10, 0x20, 0x20, 0x30};
    size_t at = draw_below(&both->seed, both->lists->made_count);
    struct item item;

    if (both->lists->made_count != 0 && one_of(&both->seed, 4))
        return item_of_family(both, &both->lists->made[at]);
    item = draw_interface(both);
    item.agent = draw_agent(both);
    item.controller = any_handle(both);
    item.attributes = attributes[draw(&both->seed) % 8];
    item.count = 1;
    return item;
}

/* An open item, or one on an interface. */
static struct item known_item(struct both *both)
{
    size_t at = draw_below(&both->seed, both->lists->item_count);

    return both->lists->item_count != 0 && one_of(&both->seed, 2) ? both->lists->items[at]
                                                                  : draw_item(both);
}

/* Installs an interface on a new handle, or on one that there is. */
static uint64_t install_somewhere(struct both *both)
{
    uint64_t handle = one_of(&both->seed, 2) ? 0 : any_handle(both);

    return both_install(both, handle, 0, draw_named(both));
}

static uint64_t uninstall(struct both *both)
{
    struct item item = draw_interface(both);

    return both_uninstall(both, item.handle, named_on(both, item.handle, item.guid));
}

/* Stops the drivers of the controller of an item, or of a handle, or one of them. */
static uint64_t disconnect(struct both *both)
{
    uint64_t handle = known_item(both).controller;
    uint64_t driver = one_of(&both->seed, 2) ? 0 : draw_agent(both);

    return both_disconnect(both, handle, driver);
}

static uint64_t serve_with_drivers(struct both *both, enum service service)
{
    struct item item;

    switch (service) {
    case INSTALL:
        return install_somewhere(both);
    case UNINSTALL:
        return uninstall(both);
    case REINSTALL:
        item = draw_interface(both);
        return reinstall(both, &item);
    case LOCATE_NEXT:
        return locate(both, RAFKUDIN_BY_REGISTER_NOTIFY);
    case OPEN:
        item = draw_item(both);
        return both_open(both, &item);
    case CLOSE:
        item = known_item(both);
        return both_close(both, &item);
    case CONNECT:
    case CONNECT_ALL:
        return both_connect(both, any_handle(both), service == CONNECT_ALL);
    case DISCONNECT:
        return disconnect(both);
    default:
        abort();
    }
}

static void make_call(struct both *both)
{
    enum service service = driver_services[draw(&both->seed) % COUNT(driver_services)];

    tally(service, serve_with_drivers(both, service));
}

/* Calls on a full core, whose whole state is compared ten times. */
static void draw_on_many(uint64_t seed)
{
    struct both both = begin(seed, 4059);

    for (unsigned call = 1; call <= 2500; call++) {
        make_call(&both);
        if (call % 250 == 0)
            both_compare(&both);
    }
    if (seed == 1)
        try_least(least_many, COUNT(least_many));
    both_end(&both);
}

/* How often each hindrance is wanted on the first eight small cores. */
static const unsigned long hindrances[HINDRANCES] = {
    [NO_DRIVER] = 14, [STAYS] = 265, [ITEM] = 140, [HANDLE] = 11,
    [OPENER] = 64,    [AGENT] = 26,  [KEPT] = 155};

static unsigned long refused_in_all(const struct lists *lists)
{
    unsigned long sum = 0;

    for (size_t reason = 0; reason < HINDRANCES; reason++)
        sum += lists->refused[reason];
    return sum;
}

/* Calls on a small core. After each for which a stop is refused, and at the end, the whole state is
 * compared. */
static void draw_on_few(uint64_t seed, unsigned long refused[HINDRANCES])
{
    struct both both = begin(seed, 25);

    for (unsigned call = 0; call < 1250; call++) {
        unsigned long before = refused_in_all(both.lists);

        make_call(&both);
        if (refused_in_all(both.lists) != before)
            both_compare(&both);
    }
    for (size_t reason = 0; reason < HINDRANCES; reason++)
        refused[reason] += both.lists->refused[reason];
    both_end(&both);
}

static void draw_with_drivers(void)
{
    unsigned long refused[HINDRANCES] = {0};

    for (uint64_t seed = 1; seed < 4; seed++)
        draw_on_many(seed);
    for (uint64_t seed = 0; seed < 40; seed++) {
        draw_on_few(seed, refused);
        for (size_t reason = 0; seed == 7 && reason < HINDRANCES; reason++)
            HOLDS(refused[reason] >= hindrances[reason]);
    }
}

int main(void)
{
    draw_without_drivers();
    for (uint64_t seed = 0; seed < 10; seed++)
        draw_on_one(seed);
    draw_with_drivers();
    return points_end("drawn_handles");
}
