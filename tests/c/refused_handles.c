/* Calls on handles and drivers over memory that is refused, as the lists grow and on a full table:
 * the first allocation of a call and all after it, then from the second on, and so on until the
 * call is served; each allocation alone; and all that goes past an amount of bytes, for each
 * amount. A call that is refused memory returns OUT_OF_RESOURCES and leaves all handles,
 * interfaces, open items, children, registrations and what is in memory as they were. One that is
 * refused none is served, and leaves what it leaves on a core that was never refused any. An
 * interface that UninstallMultipleProtocolInterfaces took out comes back where memory runs out at a
 * later one. The heap is that of refusing_heap.h, instead of the library's. Each point that does
 * not hold is printed on standard error, and then the status is 1. */
#include "core_state.h"
#include "points.h"
#include "refusing_heap.h"
#include "small_core.h"

#include <limits.h>
#include <stdio.h>
#include <stdlib.h>
#include <string.h>

#define SUCCESS RAFKUDIN_SUCCESS

/* What is there before a call and after it, and what it leaves where it is refused nothing. */
static struct state before, after, wanted;

/* ---- Calls ---- */

enum kind {
    INSTALL,
    INSTALL_MANY,
    OPEN,
    REGISTER,
    UNINSTALL,
    UNINSTALL_ALL,
    REINSTALL,
    CONNECT,
    DISCONNECT
};

/* A call: what it names beside its kind. One that installs many interfaces has as many GUIDs as its
 * number says, of one byte after the other. */
struct call {
    enum kind kind;
    uint64_t handle;
    uint8_t guid;
    uint64_t number; /* the value, the agent, the event or the driver */
    uint32_t attributes;
};

/* The numbers of the next handle and of the next registration of a core, which no refusal takes. */
static uint64_t handles, registrations;

/* Whether an installation on a handle, or on a new one where it is 0, has set it as it should. */
static bool is_installed(uint64_t status, uint64_t handle, uint64_t given)
{
    if (status != SUCCESS || handle != 0)
        return given == handle;
    return given == handles++;
}

static uint64_t install_many(struct rafkudin *core, const struct call *call)
{
    struct rafkudin_interface interfaces[16];
    uint64_t handle = call->handle, status;

    for (size_t at = 0; at < call->number; at++)
        interfaces[at] = (struct rafkudin_interface){guid_of((uint8_t)(call->guid + at)), at};
    status = RafkudinInstallMultipleProtocolInterfaces(core, &handle, interfaces, call->number);
    HOLDS(is_installed(status, call->handle, handle));
    return status;
}

/* Uninstalls all interfaces on a handle in one call, in order of installation. */
static uint64_t uninstall_all(struct rafkudin *core, uint64_t handle)
{
    struct rafkudin_interface interfaces[3];
    size_t count = 0;

    while (RafkudinInterface(core, handle, count, &interfaces[count]) == SUCCESS)
        if (++count == COUNT(interfaces))
            abort();
    return RafkudinUninstallMultipleProtocolInterfaces(core, handle, interfaces, count);
}

static uint64_t make(struct rafkudin *core, const struct call *call)
{
    struct rafkudin_guid guid = guid_of(call->guid);
    uint64_t handle = call->handle, value, status;

    switch (call->kind) {
    case INSTALL:
        status = RafkudinInstallProtocolInterface(core, &handle, &guid, 0, call->number);
        HOLDS(is_installed(status, call->handle, handle));
        return status;
    case INSTALL_MANY:
        return install_many(core, call);
    case OPEN:
        return RafkudinOpenProtocol(core, handle, &guid, &value, call->number, 0, call->attributes);
    case REGISTER:
        status = RafkudinRegisterProtocolNotify(core, &guid, call->number, &value);
        HOLDS(status != SUCCESS || value == registrations++);
        return status;
    case UNINSTALL:
        return RafkudinUninstallProtocolInterface(core, handle, &guid, call->number);
    case UNINSTALL_ALL:
        return uninstall_all(core, handle);
    case REINSTALL:
        return RafkudinReinstallProtocolInterface(core, handle, &guid, call->number, handle);
    case CONNECT:
        return RafkudinConnectDrivers(core, handle, &call->number, call->number != 0, true);
    default:
        return RafkudinDisconnectDrivers(core, handle, call->number);
    }
}

static void succeed(struct rafkudin *core, struct call call)
{
    HOLDS(make(core, &call) == SUCCESS);
}

/* Makes a call with its first allocation and all after it refused, then from the second one on,
 * until none is refused. The answer is how often memory ran out. */
static unsigned long refusals_of(struct rafkudin *core, struct call call)
{
    take_state(&before, core);
    for (unsigned long number = 1; number < 1000; number++) {
        uint64_t left = RafkudinCallsLeft(core), status;

        refuse(number, ULONG_MAX);
        status = make(core, &call);
        refuse_none();
        HOLDS(RafkudinCallsLeft(core) == left - 1);
        HOLDS(status == (was_refused ? RAFKUDIN_OUT_OF_RESOURCES : SUCCESS));
        if (status == SUCCESS)
            return number - 1;
        take_state(&after, core);
        HOLDS(are_same(&before, &after));
    }
    HOLDS(!"a call is refused for ever");
    return 0;
}

/* Makes a call with one allocation refused, alone or with all after it, on a core that is made
 * anew, which is as `before` says: lists that a refused call lets grow skip no allocation so. Where
 * one alone is refused, std may ask again for less, and then the call is served. The answer is
 * whether an allocation was refused. */
static bool is_out_at(struct rafkudin *(*made)(void), struct call call, unsigned long number,
                      bool is_alone)
{
    struct rafkudin *core = made();
    uint64_t status;

    refuse(number, is_alone ? number : ULONG_MAX);
    status = make(core, &call);
    refuse_none();
    take_state(&after, core);
    HOLDS(status == (was_refused ? RAFKUDIN_OUT_OF_RESOURCES : SUCCESS) ||
          (is_alone && status == SUCCESS));
    HOLDS(are_same(&before, &after) == (status != SUCCESS));
    HOLDS(status == SUCCESS || make(core, &call) == SUCCESS);
    take_end(&after, core);
    HOLDS(are_same(&wanted, &after));
    RafkudinFree(core);
    return was_refused;
}

/* Makes a call where it is refused nothing. */
static void take_wanted(struct rafkudin *(*made)(void), struct call call)
{
    struct rafkudin *core = made();

    succeed(core, call);
    take_end(&wanted, core);
    RafkudinFree(core);
}

/* Makes a call with each of its allocations refused, in all three ways. The answer is how many
 * there are. */
static unsigned long try_call(struct rafkudin *(*made)(void), struct call call)
{
    struct rafkudin *core;
    unsigned long number = 1;

    take_wanted(made, call);
    core = made();
    refusals_of(core, call);
    take_end(&after, core);
    HOLDS(are_same(&wanted, &after));
    RafkudinFree(core);
    while (number < 1000 && is_out_at(made, call, number, false)) {
        is_out_at(made, call, number, true);
        number++;
    }
    HOLDS(number < 1000 && in_use == 0);
    return number - 1;
}

/* ---- Lists that grow ---- */

#define ROUNDS 70U

/* The GUID that drivers open. */
#define DRIVEN 1U

/* A core with some drivers. */
static struct rafkudin *core_with(const struct rafkudin_driver *drivers, size_t count)
{
    refuse_none();
    handles = registrations = 1;
    return small_core(drivers, count);
}

static struct rafkudin *plain_core(void)
{
    struct rafkudin_driver driver = driver_for(1, DRIVEN, DRIVEN);

    return core_with(&driver, 1);
}

/* 150 interfaces, of one GUID on a handle each, or of a GUID each on one handle. */
static void refuse_installations(bool is_one_handle)
{
    struct rafkudin *core = plain_core();
    unsigned long count = 0;

    for (uint8_t byte = 1; byte < 151; byte++)
        count += is_one_handle
                     ? refusals_of(core, (struct call){INSTALL, byte > 1, byte, 5, 0})
                     : refusals_of(core, (struct call){INSTALL, 0, 1, 5, 0});
    HOLDS(count >= 20);
    RafkudinFree(core);
}

/* Calls that install several interfaces each, 50 times: on new handles, of the same GUIDs and of
 * new ones; on one handle; and on one handle after the other. */
static void refuse_long_installations(void)
{
    static const struct {
        struct call first;
        uint8_t guids, handles; /* how far those of a call are from those of the one before */
    } rows[] = {
        {{INSTALL_MANY, 0, 2, 5, 0}, 0, 0},
        {{INSTALL_MANY, 0, 2, 3, 0}, 3, 0},
        {{INSTALL_MANY, 1, 2, 4, 0}, 4, 0},
        {{INSTALL_MANY, 1, 2, 5, 0}, 0, 1},
    };

    for (size_t row = 0; row < COUNT(rows); row++) {
        struct rafkudin *core = plain_core();
        struct call call = rows[row].first;
        unsigned long count = 0;

        for (unsigned time = 0; time < 50; time++)
            succeed(core, (struct call){INSTALL, 0, DRIVEN, 0, 0});
        for (unsigned time = 0; time < 50; time++) {
            count += refusals_of(core, call);
            call.guid = (uint8_t)(call.guid + rows[row].guids);
            call.handle += rows[row].handles;
        }
        HOLDS(count >= 20);
        RafkudinFree(core);
    }
}

/* Opens of each interface by five agents: with the fifth open item near it a handle takes memory of
 * its own. */
static void refuse_opens(void)
{
    struct rafkudin *core = plain_core();
    unsigned long count = 0;

    for (unsigned round = 0; round < ROUNDS; round++)
        succeed(core, (struct call){INSTALL, 0, DRIVEN, 0, 0});
    for (uint64_t handle = 1; handle <= ROUNDS; handle++)
        for (uint64_t agent = 1; agent <= 5; agent++)
            count += refusals_of(
                core, (struct call){OPEN, handle, DRIVEN, agent, RAFKUDIN_GET_PROTOCOL});
    HOLDS(count >= ROUNDS);
    RafkudinFree(core);
}

static void refuse_registrations(void)
{
    struct rafkudin *core = plain_core();
    unsigned long count = 0;

    for (uint64_t event = 1; event <= ROUNDS; event++)
        count += refusals_of(core, (struct call){REGISTER, 0, DRIVEN, event, 0});
    HOLDS(count >= 5);
    RafkudinFree(core);
}

/* An uninstallation stops the driver of one handle in two, for which it takes memory; for the others
 * it takes none. */
static void refuse_uninstallations(void)
{
    struct rafkudin *core = plain_core();

    succeed(core, (struct call){INSTALL, 0, BINDING, 0, 0});
    for (uint64_t handle = 2; handle < ROUNDS + 2; handle++) {
        succeed(core, (struct call){INSTALL, 0, DRIVEN, 0, 0});
        if (handle % 2 == 0)
            succeed(core, (struct call){CONNECT, handle, 0, 0, 0});
    }
    for (uint64_t handle = 2; handle < ROUNDS + 2; handle++)
        HOLDS((refusals_of(core, (struct call){UNINSTALL, handle, DRIVEN, 0, 0}) > 0) ==
              (handle % 2 == 0));
    RafkudinFree(core);
}

/* Calls that uninstall all interfaces of a handle: of one handle in three two, the second of which
 * a driver with a child has open; of the next such a second one alone; of the third two that nobody
 * has open. A copy of the lists takes memory before the first interface is out, and the stop of the
 * driver after that, whereupon the first one comes back. A single interface takes what the stop
 * takes, and what nobody has open is uninstalled while all memory is refused. */
static void refuse_uninstallations_of_all(void)
{
    struct rafkudin_driver driver = driver_for(1, DRIVEN, DRIVEN);
    const uint64_t end = 2 + 24 * 3;
    struct rafkudin *core;

    add_child(&driver, 3, 0);
    core = core_with(&driver, 1);
    succeed(core, (struct call){INSTALL, 0, BINDING, 0, 0});
    for (uint64_t handle = 2; handle < end; handle++) {
        succeed(core, (struct call){INSTALL, 0, 2, 0, 0});
        succeed(core, (struct call){INSTALL, handle, DRIVEN, 0, 0});
    }
    for (uint64_t handle = 2; handle < end; handle += 3) {
        succeed(core, (struct call){CONNECT, handle, 0, 0, 0});
        succeed(core, (struct call){CONNECT, handle + 1, 0, 0, 0});
        succeed(core, (struct call){UNINSTALL, handle + 1, 2, 0, 0});
    }
    for (uint64_t handle = 2; handle < end; handle += 3) {
        unsigned long both = refusals_of(core, (struct call){UNINSTALL_ALL, handle, 0, 0, 0});
        unsigned long single = refusals_of(core, (struct call){UNINSTALL_ALL, handle + 1, 0, 0, 0});

        HOLDS(single > 0 && both > single);
        HOLDS(refusals_of(core, (struct call){UNINSTALL_ALL, handle + 2, 0, 0, 0}) == 0);
    }
    RafkudinFree(core);
}

/* Reinstallations that stop a driver and start it again, on a number of handles one after the
 * other. The driver makes a child with a GUID, if that is not 0. */
static void refuse_reinstallations(uint8_t child, uint64_t handles)
{
    struct rafkudin_driver driver = driver_for(1, DRIVEN, DRIVEN);
    struct rafkudin *core;

    if (child != 0)
        add_child(&driver, child, 0);
    core = core_with(&driver, 1);
    succeed(core, (struct call){INSTALL, 0, BINDING, 0, 0});
    for (uint64_t handle = 0; handle < handles; handle++)
        succeed(core, (struct call){INSTALL, 0, DRIVEN, 0, 0});
    for (uint64_t handle = 2; handle < handles + 2; handle++) {
        uint64_t none = 0;

        HOLDS(RafkudinConnectDrivers(core, handle, &none, 0, false) == SUCCESS);
    }
    for (uint64_t handle = 2; handle < handles + 2; handle++)
        HOLDS(refusals_of(core, (struct call){REINSTALL, handle, DRIVEN, 0, 0}) > 0);
    RafkudinFree(core);
}

/* ---- Several interfaces at once ---- */

/* Handles with three, four and five interfaces, one with another GUID, one with two more, which fills
 * the lists of these GUIDs' handles, and events for two GUIDs. */
static struct rafkudin *installed(void)
{
    struct rafkudin *core = plain_core();

    for (uint64_t count = 3; count < 6; count++)
        succeed(core, (struct call){INSTALL_MANY, 0, 1, count, 0});
    succeed(core, (struct call){INSTALL, 0, 9, 0, 0});
    succeed(core, (struct call){INSTALL_MANY, 0, 1, 2, 0});
    succeed(core, (struct call){REGISTER, 0, 4, 1, 0});
    succeed(core, (struct call){REGISTER, 0, 21, 2, 0});
    return core;
}

/* The keys of a handle's interfaces take memory of their own from the fifth on. GUIDs from 1 to 5
 * and 9 are on handles, those from 20 on are on none. */
static void refuse_several_installations(void)
{
    static const struct call rows[] = {
        {INSTALL_MANY, 0, 1, 2, 0},   {INSTALL_MANY, 0, 1, 5, 0},  /* on a new handle */
        {INSTALL_MANY, 0, 20, 4, 0},  {INSTALL_MANY, 0, 3, 6, 0},  /* also of new GUIDs */
        {INSTALL_MANY, 0, 20, 16, 0}, {INSTALL_MANY, 4, 3, 3, 0},  /* on one that is there */
        {INSTALL_MANY, 4, 20, 5, 0},  {INSTALL_MANY, 1, 4, 2, 0},  /* a fourth and a fifth */
        {INSTALL_MANY, 2, 5, 1, 0},   {INSTALL_MANY, 2, 20, 3, 0}, /* a fifth */
        {INSTALL_MANY, 2, 5, 12, 0},  {INSTALL_MANY, 3, 6, 4, 0},  /* behind a fifth */
    };

    for (size_t row = 0; row < COUNT(rows); row++)
        HOLDS(try_call(installed, rows[row]) > 0);
}

/* ---- Children ---- */

/* How many children each of two drivers makes. */
static size_t first_children, second_children;

/* A controller on which the first driver has started, if it makes any child, and the second has
 * not. There is an event for the children. */
static struct rafkudin *family(void)
{
    struct rafkudin_driver drivers[2] = {driver_for(2, 1, 1), driver_for(1, 2, 2)};
    struct rafkudin *core;

    for (size_t child = 0; child < first_children; child++)
        add_child(&drivers[0], 3, child);
    for (size_t child = 0; child < second_children; child++)
        add_child(&drivers[1], 3, child);
    core = core_with(drivers, 2);
    succeed(core, (struct call){INSTALL_MANY, 0, 1, 2, 0});
    succeed(core, (struct call){INSTALL, 0, BINDING, 0, 0});
    succeed(core, (struct call){REGISTER, 0, 3, 4, 0});
    if (first_children > 0)
        succeed(core, (struct call){CONNECT, 1, 0, 0, 0});
    handles += first_children;
    succeed(core, (struct call){INSTALL, 0, BINDING, 1, 0});
    return core;
}

/* The same once the second driver has started too. */
static struct rafkudin *whole_family(void)
{
    struct rafkudin *core = family();

    succeed(core, (struct call){CONNECT, 1, 0, 0, 0});
    return core;
}

/* The children of a controller take memory of their own from the fifth on: the next one after four
 * takes more than the one after three. It is also the last one of five that are made at once, and
 * one of eight. */
static void refuse_fifth_children(void)
{
    static const size_t rows[][2] = {{3, 1}, {4, 1}, {0, 5}, {4, 8}, {2, 8}, {5, 1}, {8, 8}};
    unsigned long counts[COUNT(rows)];

    for (size_t row = 0; row < COUNT(rows); row++) {
        first_children = rows[row][0];
        second_children = rows[row][1];
        counts[row] = try_call(family, (struct call){CONNECT, 1, 0, 0, 0});
        HOLDS(try_call(whole_family, (struct call){REINSTALL, 1, 2, 1, 0}) > 0);
        HOLDS(try_call(whole_family, (struct call){DISCONNECT, 1, 0, 0, 0}) > 0);
    }
    HOLDS(counts[1] > counts[0] && counts[0] > 0);
}

/* A table in which no handle more can be made. On one controller a driver has made seven children,
 * on each of which another has started. There are events for all these, and other items. */
static struct rafkudin *full_table(void)
{
    struct rafkudin_driver drivers[2] = {driver_for(2, DRIVEN, DRIVEN), driver_for(1, 3, 3)};
    struct rafkudin *core;

    for (uint64_t child = 0; child < 7; child++)
        add_child(&drivers[0], 3, child);
    core = core_with(drivers, 2);
    succeed(core, (struct call){INSTALL, 0, DRIVEN, 5, 0});
    succeed(core, (struct call){INSTALL, 0, BINDING, 0, 0});
    succeed(core, (struct call){INSTALL, 0, BINDING, 1, 0});
    succeed(core, (struct call){REGISTER, 0, 3, 4, 0});
    succeed(core, (struct call){REGISTER, 0, DRIVEN, 5, 0});
    succeed(core, (struct call){CONNECT, 1, 0, 0, 0});
    for (handles += 7; handles <= RAFKUDIN_MAX_HANDLES;)
        succeed(core, (struct call){INSTALL, 0, (uint8_t)(4 + handles % 4), handles, 0});
    for (uint64_t handle = 12; handle <= RAFKUDIN_MAX_HANDLES; handle += 300) {
        succeed(core, (struct call){OPEN, 1, DRIVEN, handle, RAFKUDIN_GET_PROTOCOL});
        succeed(core, (struct call){OPEN, handle, (uint8_t)(4 + handle % 4), 11,
                                    RAFKUDIN_GET_PROTOCOL});
    }
    return core;
}

/* The children that a driver makes anew lie beside those that go until the core takes no more memory:
 * the table then has more handles than may be live. */
static void refuse_on_full_table(void)
{
    struct call reinstall = {REINSTALL, 1, DRIVEN, 5, 0};
    struct rafkudin *core = full_table();
    struct rafkudin_guid guid = guid_of(7);
    uint64_t handle = 0;

    HOLDS(RafkudinHandle(core, RAFKUDIN_MAX_HANDLES - 1, &handle) == SUCCESS);
    handle = 0;
    HOLDS(RafkudinInstallProtocolInterface(core, &handle, &guid, 0, 0) ==
          RAFKUDIN_OUT_OF_RESOURCES);
    succeed(core, reinstall);
    HOLDS(RafkudinHandle(core, RAFKUDIN_MAX_HANDLES - 1, &handle) == SUCCESS);
    HOLDS(handle == RAFKUDIN_MAX_HANDLES + 7);
    RafkudinFree(core);
    HOLDS(try_call(full_table, reinstall) > 0);
}

/* The child of a driver is a driver handle, whose driver has started on the controller and on
 * another handle, and has made a child on each. */
static struct rafkudin *made_driver(void)
{
    struct rafkudin_driver drivers[2] = {driver_for(2, 1, 1), driver_for(1, 2, 2)};
    struct rafkudin *core;

    add_child(&drivers[0], BINDING, 1);
    add_child(&drivers[1], 4, 9);
    core = core_with(drivers, 2);
    succeed(core, (struct call){INSTALL_MANY, 0, 1, 2, 0});
    succeed(core, (struct call){INSTALL, 0, BINDING, 0, 0});
    succeed(core, (struct call){INSTALL, 0, 2, 6, 0});
    succeed(core, (struct call){REGISTER, 0, BINDING, 4, 0});
    succeed(core, (struct call){REGISTER, 0, 1, 5, 0});
    for (uint64_t handle = 1; handle < 4; handle += 2)
        succeed(core, (struct call){CONNECT, handle, 0, 0, 0});
    succeed(core, (struct call){CONNECT, 1, 0, 0, 0});
    return core;
}

/* What is there before and after the driver handle goes, by hand: its items go with it. */
static void try_made_driver_by_hand(void)
{
    struct rafkudin *core = made_driver();
    struct rafkudin_guid binding = guid_of(BINDING), two = guid_of(2);
    struct rafkudin_item item;
    uint64_t found[8], count = 0;

    HOLDS(RafkudinHoldersInto(core, &binding, found, 8, &count) == SUCCESS && count == 2);
    HOLDS(found[0] == 2 && found[1] == 4);
    HOLDS(RafkudinOpenItem(core, 1, &two, 0, &item) == SUCCESS && item.agent == 4);
    HOLDS(RafkudinOpenItem(core, 3, &two, 0, &item) == SUCCESS && item.agent == 4);
    HOLDS(RafkudinChildren(core, 3, 4, found, 8, &count) == SUCCESS && count == 1 && found[0] == 5);
    succeed(core, (struct call){REINSTALL, 1, 1, 0, 0});
    HOLDS(RafkudinHandlesInto(core, found, 8, &count) == SUCCESS && count == 6);
    HOLDS(found[3] == 5 && found[4] == 6 && found[5] == 7);
    HOLDS(RafkudinHoldersInto(core, &binding, found, 8, &count) == SUCCESS && count == 2);
    HOLDS(found[0] == 2 && found[1] == 7);
    HOLDS(RafkudinOpenItem(core, 1, &two, 0, &item) == RAFKUDIN_NOT_FOUND);
    HOLDS(RafkudinOpenItem(core, 3, &two, 0, &item) == RAFKUDIN_NOT_FOUND);
    RafkudinFree(core);
}

/* ---- Drivers that start and stop while less and less memory is there ---- */

/* A controller with two GUIDs, two drivers that open one of them each and make children, one of
 * which each supports, and an event for those. */
static struct rafkudin *free_controller(void)
{
    struct rafkudin_driver drivers[2] = {driver_for(2, 1, 1), driver_for(1, 2, 2)};
    struct rafkudin *core;

    add_child(&drivers[0], 3, 7);
    add_child(&drivers[0], 3, 8);
    add_child(&drivers[1], 1, 9);
    core = core_with(drivers, 2);
    succeed(core, (struct call){INSTALL, 0, 1, 5, 0});
    succeed(core, (struct call){INSTALL, 1, 2, 6, 0});
    succeed(core, (struct call){INSTALL, 0, BINDING, 0, 0});
    succeed(core, (struct call){INSTALL, 0, BINDING, 1, 0});
    succeed(core, (struct call){REGISTER, 0, 3, 4, 0});
    return core;
}

/* The same once both drivers have started. */
static struct rafkudin *managed_controller(void)
{
    struct rafkudin *core = free_controller();

    succeed(core, (struct call){CONNECT, 1, 0, 0, 0});
    return core;
}

/* The same with an agent that can have an interface open exclusively. */
static struct rafkudin *opened_controller(void)
{
    struct rafkudin *core = managed_controller();

    handles = 9;
    succeed(core, (struct call){INSTALL, 0, 5, 0, 0});
    return core;
}

/* Makes a call while this many bytes more can be in use, and again with enough memory if it is
 * refused. The answer is whether it was refused. */
static bool is_refused_with(struct rafkudin *(*made)(void), struct call call, size_t bytes,
                            bool may_grow)
{
    struct rafkudin *core = made();
    struct rafkudin_guid one = guid_of(1);
    uint64_t status, value;
    size_t used;

    /* The reply to a call that takes no memory is kept in place of the last one. */
    HOLDS(RafkudinHandleProtocol(core, 1, &one, &value) == SUCCESS);
    take_state(&before, core);
    used = in_use;
    refuse(0, 0);
    most_bytes = used + bytes;
    status = make(core, &call);
    most_bytes = SIZE_MAX;
    if (status != SUCCESS) {
        HOLDS(status == RAFKUDIN_OUT_OF_RESOURCES && was_refused);
        /* A copy of the lists that is put back may take less memory than they did. */
        HOLDS(in_use == used || may_grow || (call.kind == UNINSTALL_ALL && in_use < used));
        take_state(&after, core);
        HOLDS(are_same(&before, &after));
        HOLDS(make(core, &call) == SUCCESS);
    }
    take_end(&after, core);
    HOLDS(are_same(&wanted, &after));
    RafkudinFree(core);
    HOLDS(in_use == 0);
    return status != SUCCESS;
}

/* Tries a call with 8 bytes more each time, until it is served at each of many amounts. A call on a
 * core whose lists may have grown leaves that memory with them. */
static void try_amounts(struct rafkudin *(*made)(void), struct call call, bool may_grow)
{
    unsigned refusals = 0, last = 0;

    take_wanted(made, call);
    for (unsigned row = 0; row < 4096; row++)
        if (is_refused_with(made, call, 8 * (size_t)row, may_grow)) {
            refusals++;
            last = row;
        }
    HOLDS(refusals > 0 && last < 2048);
}

/* What is there once both drivers have started, or are stopped: by hand. */
static void try_by_hand(void)
{
    struct rafkudin *core = free_controller();
    uint64_t found[16], events[16], count = 0;
    struct call named = {CONNECT, 1, 0, 3, 0};

    succeed(core, named);
    HOLDS(RafkudinEvents(core, events, 16) == 4 && events[0] == 4 && events[3] == 4);
    HOLDS(RafkudinHandlesInto(core, found, 16, &count) == SUCCESS && count == 8);
    for (uint64_t at = 0; at < 8; at++)
        HOLDS(found[at] == at + 1);
    succeed(core, (struct call){DISCONNECT, 1, 0, 0, 0});
    HOLDS(RafkudinHandlesInto(core, found, 16, &count) == SUCCESS && count == 3);
    RafkudinFree(core);
    core = opened_controller();
    succeed(core, (struct call){OPEN, 1, 2, 9, RAFKUDIN_EXCLUSIVE});
    HOLDS(RafkudinHandlesInto(core, found, 16, &count) == SUCCESS && count == 6);
    HOLDS(found[3] == 4 && found[4] == 5 && found[5] == 9);
    RafkudinFree(core);
}

static void try_drivers(void)
{
    struct call connect = {CONNECT, 1, 0, 3, 0}, disconnect = {DISCONNECT, 1, 0, 0, 0};
    struct call stop = {OPEN, 1, 2, 9, RAFKUDIN_EXCLUSIVE}, uninstall = {UNINSTALL, 1, 2, 6, 0};
    struct call reinstall = {REINSTALL, 1, 2, 6, 0}, uninstall_both = {UNINSTALL_ALL, 1, 0, 0, 0};

    try_by_hand();
    try_amounts(free_controller, connect, true);
    try_amounts(managed_controller, disconnect, false);
    try_amounts(opened_controller, stop, true);
    try_amounts(managed_controller, uninstall, false);
    try_amounts(managed_controller, uninstall_both, false);
    try_amounts(managed_controller, reinstall, true);
    HOLDS(try_call(free_controller, connect) > 0);
    HOLDS(try_call(managed_controller, disconnect) > 0);
    HOLDS(try_call(opened_controller, stop) > 0);
    HOLDS(try_call(managed_controller, uninstall) > 0);
    HOLDS(try_call(managed_controller, uninstall_both) > 0);
    HOLDS(try_call(managed_controller, reinstall) > 0);
}

/* Calls by which a handle goes that is a driver's own. */
static void try_made_driver(void)
{
    struct call reinstall = {REINSTALL, 1, 1, 0, 0};

    try_made_driver_by_hand();
    try_amounts(made_driver, reinstall, true);
    HOLDS(try_call(made_driver, reinstall) > 0);
    HOLDS(try_call(made_driver, (struct call){UNINSTALL, 1, 1, 0, 0}) > 0);
    HOLDS(try_call(made_driver, (struct call){DISCONNECT, 1, 0, 2, 0}) > 0);
}

/* A driver that was started and stopped on each of many handles, one after the other, leaves no more
 * in memory than on one. */
static void try_leftovers(void)
{
    struct rafkudin *core = plain_core();
    size_t once = 0, most = 0;

    succeed(core, (struct call){INSTALL, 0, BINDING, 0, 0});
    for (uint64_t handle = 2; handle < 200; handle++)
        succeed(core, (struct call){INSTALL, 0, DRIVEN, 5, 0});
    for (uint64_t handle = 2; handle < 200; handle++) {
        succeed(core, (struct call){CONNECT, handle, 0, 0, 0});
        succeed(core, (struct call){DISCONNECT, handle, 0, 0, 0});
        once = handle == 2 ? in_use : once;
        most = in_use > most ? in_use : most;
    }
    HOLDS(most - once <= 256);
    RafkudinFree(core);
    HOLDS(in_use == 0);
}

int main(void)
{
    refuse_installations(false);
    refuse_installations(true);
    refuse_long_installations();
    refuse_several_installations();
    refuse_opens();
    refuse_registrations();
    refuse_uninstallations();
    refuse_uninstallations_of_all();
    refuse_reinstallations(0, ROUNDS);
    refuse_reinstallations(3, ROUNDS);
    refuse_reinstallations(BINDING, 10);
    refuse_fifth_children();
    refuse_on_full_table();
    try_drivers();
    try_made_driver();
    try_leftovers();
    return points_end("refused_handles");
}
