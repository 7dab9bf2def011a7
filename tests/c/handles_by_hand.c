/* Handles, open items, registrations and table drivers by values that are worked out by hand from
 * docs/RULES.md. Each point that does not hold is printed on standard error, and then the status is
 * 1. */
#include "points.h"
#include "small_core.h"

#include <stdlib.h>
#include <string.h>

#define SUCCESS RAFKUDIN_SUCCESS
#define INVALID RAFKUDIN_INVALID_PARAMETER
#define DENIED RAFKUDIN_ACCESS_DENIED

#define HAS(core, question, ...)                                                                   \
    do {                                                                                           \
        static const uint64_t wanted[] = {__VA_ARGS__};                                            \
        HOLDS(question(core, wanted, COUNT(wanted)));                                              \
    } while (0)

/* ---- Calls ---- */

static uint64_t install(struct rafkudin *core, uint64_t handle, uint8_t byte, uint64_t value)
{
    struct rafkudin_guid guid = guid_of(byte);
    uint64_t given = handle, status;

    status = RafkudinInstallProtocolInterface(core, &given, &guid, 0, value);
    HOLDS(status == SUCCESS || given == handle);
    return status == SUCCESS ? given : status;
}

static uint64_t uninstall(struct rafkudin *core, uint64_t handle, uint8_t byte, uint64_t value)
{
    struct rafkudin_guid guid = guid_of(byte);

    return RafkudinUninstallProtocolInterface(core, handle, &guid, value);
}

/* Uninstalls interfaces of a handle in one call. Each has the byte of its GUID as its value. */
static uint64_t uninstall_many(struct rafkudin *core, uint64_t handle, const char *bytes)
{
    struct rafkudin_interface interfaces[4];
    size_t count = strlen(bytes);

    for (size_t at = 0; at < count; at++) {
        interfaces[at].guid = guid_of((uint8_t)bytes[at]);
        interfaces[at].value = (uint8_t)bytes[at];
    }
    return RafkudinUninstallMultipleProtocolInterfaces(core, handle, interfaces, count);
}

static uint64_t reinstall(struct rafkudin *core, uint64_t handle, uint8_t byte, uint64_t old,
                          uint64_t new)
{
    struct rafkudin_guid guid = guid_of(byte);

    return RafkudinReinstallProtocolInterface(core, handle, &guid, old, new);
}

static uint64_t open(struct rafkudin *core, uint64_t handle, uint8_t byte, uint64_t agent,
                     uint64_t controller, uint32_t attributes)
{
    struct rafkudin_guid guid = guid_of(byte);
    uint64_t value;

    return RafkudinOpenProtocol(core, handle, &guid, &value, agent, controller, attributes);
}

static uint64_t close(struct rafkudin *core, uint64_t handle, uint8_t byte, uint64_t agent,
                      uint64_t controller)
{
    struct rafkudin_guid guid = guid_of(byte);

    return RafkudinCloseProtocol(core, handle, &guid, agent, controller);
}

static uint64_t connect(struct rafkudin *core, uint64_t handle, bool is_recursive)
{
    return RafkudinConnectController(core, handle, NULL, 0, is_recursive);
}

static uint64_t disconnect(struct rafkudin *core, uint64_t handle, uint64_t driver)
{
    return RafkudinDisconnectController(core, handle, driver, 0);
}

/* The key of a new registration. */
static uint64_t registered(struct rafkudin *core, uint8_t byte, uint64_t event)
{
    struct rafkudin_guid guid = guid_of(byte);
    uint64_t key = 0;

    HOLDS(RafkudinRegisterProtocolNotify(core, &guid, event, &key) == SUCCESS);
    return key;
}

/* The handle that a key meets next, which it takes; a status where there is none. */
static uint64_t take_next(struct rafkudin *core, uint64_t key)
{
    uint64_t handle = 0, size = sizeof handle, status;

    status = RafkudinLocateHandle(core, RAFKUDIN_BY_REGISTER_NOTIFY, NULL, key, &size, &handle);
    return status == SUCCESS ? handle : status;
}

/* The value of an interface, or a status. */
static uint64_t value_of(struct rafkudin *core, uint64_t handle, uint8_t byte)
{
    struct rafkudin_guid guid = guid_of(byte);
    uint64_t value = 0, status = RafkudinHandleProtocol(core, handle, &guid, &value);

    return status == SUCCESS ? value : status;
}

/* ---- Questions ---- */

static bool are_handles(struct rafkudin *core, const uint64_t *wanted, size_t count)
{
    uint64_t found[64], number = 0;

    return RafkudinHandlesInto(core, found, 64, &number) == SUCCESS && number == count &&
           (count == 0 || memcmp(found, wanted, count * sizeof *wanted) == 0);
}

/* Whether the handles that carry a GUID are these. */
static bool are_holders(struct rafkudin *core, uint8_t byte, const uint64_t *wanted, size_t count)
{
    struct rafkudin_guid guid = guid_of(byte);
    uint64_t found[64], number = 0;

    return RafkudinHoldersInto(core, &guid, found, 64, &number) == SUCCESS && number == count &&
           (count == 0 || memcmp(found, wanted, count * sizeof *wanted) == 0);
}

/* Whether the GUIDs on a handle are these, in the order of their installation. */
static bool are_protocols(struct rafkudin *core, uint64_t handle, const char *bytes)
{
    struct rafkudin_guid found[16], guid;
    uint64_t count = 0;

    if (RafkudinProtocolsPerHandle(core, handle, found, 16, &count) != SUCCESS ||
        count != strlen(bytes))
        return false;
    for (size_t at = 0; at < count; at++) {
        guid = guid_of((uint8_t)bytes[at]);
        if (memcmp(&found[at], &guid, sizeof guid) != 0)
            return false;
    }
    return true;
}

/* Whether the events of the last call are these. */
static bool are_events(struct rafkudin *core, const uint64_t *wanted, size_t count)
{
    uint64_t found[64];

    return RafkudinEvents(core, found, 64) == count &&
           memcmp(found, wanted, count * sizeof *wanted) == 0;
}

/* How many items are open on an interface. */
static size_t item_count(struct rafkudin *core, uint64_t handle, uint8_t byte)
{
    struct rafkudin_guid guid = guid_of(byte);
    struct rafkudin_item item;
    size_t count = 0;

    while (RafkudinOpenItem(core, handle, &guid, count, &item) == SUCCESS)
        count++;
    return count;
}

/* How often an agent has an interface open for a controller with some attributes. */
static uint32_t times_open(struct rafkudin *core, uint64_t handle, uint8_t byte, uint64_t agent,
                           uint64_t controller, uint32_t attributes)
{
    struct rafkudin_guid guid = guid_of(byte);
    struct rafkudin_item item;

    for (size_t at = 0; RafkudinOpenItem(core, handle, &guid, at, &item) == SUCCESS; at++)
        if (item.agent == agent && item.controller == controller && item.attributes == attributes)
            return item.open_count;
    return 0;
}

/* Whether a list of pairs is this one, each a controller and an agent. */
static bool are_pairs(const struct rafkudin_stop *found, uint64_t number, const uint64_t *wanted,
                      size_t count)
{
    if (number * 2 != count)
        return false;
    for (size_t at = 0; at < number; at++)
        if (found[at].controller != wanted[2 * at] || found[at].agent != wanted[2 * at + 1])
            return false;
    return true;
}

/* Whether a caller is to stop these pairs, in this order, before a controller is disconnected. */
static bool are_stops(struct rafkudin *core, uint64_t controller, uint64_t driver,
                      const uint64_t *wanted, size_t count)
{
    struct rafkudin_stop found[32];
    uint64_t number = 0;

    return RafkudinStopsOnController(core, controller, driver, found, 32, &number) == SUCCESS &&
           are_pairs(found, number, wanted, count);
}

static bool are_stops_on(struct rafkudin *core, uint64_t handle, uint8_t byte,
                         const uint64_t *wanted, size_t count)
{
    struct rafkudin_guid guid = guid_of(byte);
    struct rafkudin_stop found[32];
    uint64_t number = 0;

    return RafkudinStopsOnInterface(core, handle, &guid, found, 32, &number) == SUCCESS &&
           are_pairs(found, number, wanted, count);
}

static bool are_children(struct rafkudin *core, uint64_t controller, uint64_t agent,
                         const uint64_t *wanted, size_t count)
{
    uint64_t found[32], number = 0;

    return RafkudinChildren(core, controller, agent, found, 32, &number) == SUCCESS &&
           number == count && (count == 0 || memcmp(found, wanted, count * sizeof *wanted) == 0);
}

#define HOLDERS(core, byte, ...) LIST(are_holders, (core, byte, wanted, COUNT(wanted)), __VA_ARGS__)
#define STOPS(core, handle, driver, ...)                                                           \
    LIST(are_stops, (core, handle, driver, wanted, COUNT(wanted)), __VA_ARGS__)
#define STOPS_ON(core, handle, byte, ...)                                                          \
    LIST(are_stops_on, (core, handle, byte, wanted, COUNT(wanted)), __VA_ARGS__)
#define CHILDREN(core, handle, agent, ...)                                                         \
    LIST(are_children, (core, handle, agent, wanted, COUNT(wanted)), __VA_ARGS__)
#define LIST(question, parameters, ...)                                                            \
    do {                                                                                           \
        static const uint64_t wanted[] = {__VA_ARGS__};                                            \
        HOLDS(question parameters);                                                                \
    } while (0)

/* ---- Handles and interfaces ---- */

static void try_installations(void)
{
    struct rafkudin *core = small_core(NULL, 0);
    struct rafkudin_guid three = guid_of(3);
    uint64_t given = 1, key;

    HOLDS(install(core, 0, 1, 0x10) == 1);
    key = registered(core, 1, 5);
    HOLDS(install(core, 0, 2, 0) == 2);
    HOLDS(install(core, 1, 1, 0) == INVALID);
    HOLDS(RafkudinInstallProtocolInterface(core, &given, &three, 1, 0) == INVALID && given == 1);
    HOLDS(install(core, 9, 3, 0) == INVALID);
    HOLDS(install(core, 2, 1, 0x11) == 2);
    HOLDERS(core, 1, 1, 2);
    HOLDERS(core, 2, 2);
    HAS(core, are_handles, 1, 2);
    HOLDS(value_of(core, 2, 1) == 0x11);
    HOLDS(value_of(core, 1, 2) == RAFKUDIN_UNSUPPORTED);
    HOLDS(take_next(core, key) == 2 && take_next(core, key) == RAFKUDIN_NOT_FOUND);
    RafkudinFree(core);
}

/* Installs two interfaces at once. */
static uint64_t install_both(struct rafkudin *core, uint64_t handle, uint8_t first, uint8_t second)
{
    struct rafkudin_interface both[2] = {{guid_of(first), 1}, {guid_of(second), 2}};
    uint64_t given = handle;
    uint64_t status = RafkudinInstallMultipleProtocolInterfaces(core, &given, both, 2);

    HOLDS(status == SUCCESS || given == handle);
    return status == SUCCESS ? given : status;
}

static void try_two_at_once(void)
{
    struct rafkudin *core = small_core(NULL, 0);

    HOLDS(install_both(core, 0, 1, 2) == 1);
    HOLDS(install_both(core, 0, 1, 1) == INVALID);
    HOLDS(install_both(core, 1, 3, 1) == INVALID);
    HOLDS(are_protocols(core, 1, "\1\2"));
    HOLDS(value_of(core, 1, 1) == 1 && value_of(core, 1, 2) == 2);
    HAS(core, are_handles, 1);
    RafkudinFree(core);
}

/* A value that is replaced, and handles that go with their last interface. */
static void try_changes(void)
{
    struct rafkudin *core = small_core(NULL, 0);

    HOLDS(install(core, 0, 1, 0x10) == 1);
    HOLDS(reinstall(core, 1, 1, 0x11, 0x12) == RAFKUDIN_NOT_FOUND);
    HOLDS(reinstall(core, 1, 1, 0x10, 0x12) == SUCCESS);
    HOLDS(value_of(core, 1, 1) == 0x12);
    HOLDS(install(core, 0, 2, 5) == 2);
    HOLDS(uninstall(core, 1, 1, 0x10) == RAFKUDIN_NOT_FOUND);
    HOLDS(uninstall(core, 1, 1, 0x12) == SUCCESS);
    HAS(core, are_handles, 2);
    HOLDS(value_of(core, 1, 1) == INVALID);
    HOLDS(uninstall(core, 2, 2, 5) == SUCCESS);
    HOLDS(are_handles(core, NULL, 0));
    HOLDS(install(core, 0, 1, 0) == 3);
    RafkudinFree(core);
}

/* 4,096 handles can be live; a live one still takes interfaces then. */
static void try_most_handles(void)
{
    struct rafkudin *core = small_core(NULL, 0);

    for (uint64_t number = 1; number <= RAFKUDIN_MAX_HANDLES; number++)
        HOLDS(install(core, 0, 1, 0) == number);
    HOLDS(install(core, 0, 1, 0) == RAFKUDIN_OUT_OF_RESOURCES);
    HOLDS(install(core, 7, 2, 0) == 7);
    HOLDS(install(core, 4097, 2, 0) == INVALID);
    HOLDS(install(core, 0, 2, 0) == RAFKUDIN_OUT_OF_RESOURCES);
    HOLDS(uninstall(core, 9, 1, 0) == SUCCESS);
    HOLDS(install(core, 0, 1, 0) == 4097);
    RafkudinFree(core);
}

/* ---- The order of interfaces ---- */

/* What happens to the interface of GUID 1 on a handle, which carries GUID 2 too; the handles that
 * carry GUID 1 then; and in the order of the last installation those whose interface of GUID 1 is
 * newer than the change of a row before, from the first row on. */
enum change { INSTALL, REMOVE, REPLACE };

#define ORDERS 12

struct order {
    enum change change;
    uint64_t handle;
    size_t holder_count;
    uint64_t holders[2];
    const char *newer[ORDERS + 1]; /* a text for each row so far, after one for the time before all;
                                      digits are handles */
};

static const struct order orders[ORDERS] = {
    {INSTALL, 1, 1, {1}, {"1", ""}},
    {INSTALL, 2, 2, {1, 2}, {"12", "2", ""}},
    {REMOVE, 1, 1, {2}, {"2", "2", "", ""}},
    {INSTALL, 1, 2, {1, 2}, {"21", "21", "1", "1", ""}},
    {REMOVE, 2, 1, {1}, {"1", "1", "1", "1", "", ""}},
    {REMOVE, 1, 0, {0}, {"", "", "", "", "", "", ""}},
    {INSTALL, 2, 1, {2}, {"2", "2", "2", "2", "2", "2", "2", ""}},
    {INSTALL, 1, 2, {1, 2}, {"21", "21", "21", "21", "21", "21", "21", "1", ""}},
    {REPLACE, 2, 2, {1, 2}, {"12", "12", "12", "12", "12", "12", "12", "12", "2", ""}},
    {REPLACE, 2, 2, {1, 2}, {"12", "12", "12", "12", "12", "12", "12", "12", "2", "2", ""}},
    {REPLACE, 1, 2, {1, 2}, {"21", "21", "21", "21", "21", "21", "21", "21", "21", "21", "1", ""}},
    {REMOVE, 1, 1, {2}, {"2", "2", "2", "2", "2", "2", "2", "2", "2", "2", "", "", ""}},
};

/* Whether a key meets these handles, one after the other, and no other. */
static bool meets(struct rafkudin *core, uint64_t key, const char *handles)
{
    for (; *handles != 0; handles++)
        if (take_next(core, key) != (uint64_t)(*handles - '0'))
            return false;
    return take_next(core, key) == RAFKUDIN_NOT_FOUND;
}

/* Each question takes what a key meets, so there is a key of each row, and of the time before all, for
 * each row that asks. */
static uint64_t order_keys[ORDERS + 1][ORDERS];

static void register_row(struct rafkudin *core, size_t row)
{
    for (size_t at = 0; at < ORDERS; at++)
        order_keys[row][at] = registered(core, 1, row);
}

static void try_order(struct rafkudin *core, size_t row, const struct order *order)
{
    if (order->change == INSTALL)
        HOLDS(install(core, order->handle, 1, row) == order->handle);
    else if (order->change == REMOVE)
        HOLDS(uninstall(core, order->handle, 1, value_of(core, order->handle, 1)) == SUCCESS);
    else
        HOLDS(reinstall(core, order->handle, 1, value_of(core, order->handle, 1), 70 + row) ==
              SUCCESS);
    register_row(core, row + 1);
    HOLDS(are_holders(core, 1, order->holders, order->holder_count));
    for (size_t before = 0; before <= row + 1; before++)
        HOLDS(meets(core, order_keys[before][row], order->newer[before]));
    for (uint64_t handle = 1; handle < 3; handle++)
        HOLDS(are_protocols(core, handle,
                            value_of(core, handle, 1) == RAFKUDIN_UNSUPPORTED ? "\2" : "\2\1"));
    HOLDERS(core, 2, 1, 2);
}

static void try_orders(void)
{
    struct rafkudin *core = small_core(NULL, 0);

    HOLDS(install(core, 0, 2, 0) == 1 && install(core, 0, 2, 0) == 2);
    register_row(core, 0);
    for (size_t row = 0; row < COUNT(orders); row++)
        try_order(core, row, &orders[row]);
    RafkudinFree(core);
}

/* ---- Registrations ---- */

static void try_registrations(void)
{
    struct rafkudin *core = small_core(NULL, 0);
    struct rafkudin_guid one = guid_of(1), two = guid_of(2);
    uint64_t value = 0;

    HOLDS(registered(core, 1, 7) == 1);
    HOLDS(install(core, 0, 1, 0x11) == 1);
    HAS(core, are_events, 7);
    HOLDS(registered(core, 1, 8) == 2);
    HOLDS(install(core, 0, 1, 0x12) == 2);
    HAS(core, are_events, 7, 8);
    HOLDS(RafkudinLocateProtocol(core, &two, 1, &value) == INVALID);
    HOLDS(RafkudinLocateProtocol(core, &one, 3, &value) == INVALID);
    HOLDS(take_next(core, 3) == INVALID);
    HOLDS(take_next(core, 1) == 1);
    HOLDS(RafkudinLocateProtocol(core, &one, 1, &value) == SUCCESS && value == 0x12);
    HOLDS(take_next(core, 1) == RAFKUDIN_NOT_FOUND);
    HOLDS(take_next(core, 2) == 2);
    RafkudinFree(core);
}

/* ---- What an open item means for the next call ---- */

/* The attributes of the second call, in the order of the letters of a row. The last is none. */
static const uint32_t second[8] = {1, 2, 4, 8, 0x10, 0x20, 0x30, 3};

/* What is decided about the second call, a letter for each of its attributes: A adds an item, C
 * counts the equal one, F stops the driver of the first, and adds an item, T would stop the agent
 * of the call itself and is refused; D is ACCESS_DENIED, I INVALID_PARAMETER, S ALREADY_STARTED, U
 * UNSUPPORTED. */
typedef const char *letters;

/* The attributes of the first call, and what is decided about the second one by the same agent for
 * the same controller; by the same agent for another one; by another agent for the same one; by
 * another agent for another one. */
static const struct pairs {
    uint32_t first;
    letters by[4];
} pairs[8] = {
    {1, {"CAAAAAAI", "AAAAAAAI", "AAAAAAAI", "AAAAAAAI"}},
    {2, {"ACAAAAAI", "AAAAAAAI", "AAAAAAAI", "AAAAAAAI"}},
    {4, {"AACAAAAI", "AAAAAAAI", "AAAAAAAI", "AAAAAAAI"}},
    {8, {"AAACAAAI", "AAAAAAAI", "AAAAAAAI", "AAAAAAAI"}},
    {0x10, {"AAAASTTI", "AAAASTTI", "AAAADFFI", "AAAADFFI"}},
    {0x20, {"AAAADDDI", "AAAADDDI", "AAAADDDI", "AAAADDDI"}},
    {0x30, {"AAAADDSI", "AAAADDSI", "AAAADDDI", "AAAADDDI"}},
    {3, {"AAAAAAAI", "AAAAAAAI", "AAAAAAAI", "AAAAAAAI"}},
};

/* The agent and the controller of the second call, in the order of a row's letters. */
static const uint64_t by[4][2] = {{2, 4}, {2, 5}, {3, 4}, {3, 5}};

/* A handle, the byte of a GUID, an agent and a controller, and what is decided where nothing is
 * open. */
static const struct names {
    uint64_t handle;
    uint8_t byte;
    uint64_t agent;
    uint64_t controller;
    letters letters;
} names[12] = {
    {1, 1, 2, 4, "AAAAAAAI"}, {1, 1, 0, 4, "AAAIIIII"}, {1, 1, 2, 0, "AAAIIAII"},
    {1, 1, 0, 0, "AAAIIIII"}, {1, 1, 9, 4, "IIIIIIII"}, {1, 1, 2, 9, "IIIIIIII"},
    {1, 1, 2, 1, "AAAIAAAI"}, {1, 1, 1, 4, "AAAAAAAI"}, {9, 1, 2, 4, "IIIIIIII"},
    {0, 1, 2, 4, "IIIIIIII"}, {1, 3, 2, 4, "UUUUUUUI"}, {1, 3, 0, 4, "UUUIIIII"},
};

/* A core with five handles that carry the same GUID. Handle 2 carries the binding of a driver that
 * stops, if wanted. */
static struct rafkudin *five_handles(bool has_driver)
{
    struct rafkudin_driver driver = driver_for(1, 9, 9);
    struct rafkudin *core = small_core(&driver, 1);

    for (uint64_t number = 1; number < 6; number++)
        HOLDS(install(core, 0, 1, 0) == number);
    if (has_driver)
        HOLDS(install(core, 2, BINDING, 0) == 2);
    return core;
}

/* The status of a letter. */
static uint64_t status_of(char letter, bool has_driver)
{
    switch (letter) {
    case 'A':
    case 'C':
        return SUCCESS;
    case 'F':
        return has_driver ? SUCCESS : DENIED;
    case 'T':
    case 'D':
        return DENIED;
    case 'I':
        return INVALID;
    case 'S':
        return RAFKUDIN_ALREADY_STARTED;
    case 'U':
        return RAFKUDIN_UNSUPPORTED;
    default:
        abort();
    }
}

/* Makes a second call on a core of its own, behind a first one by agent 2 for controller 4 where it
 * has attributes, and compares its status, the item of the first call and its own. */
static void try_letter(uint32_t first, uint64_t first_handle, const struct names *call,
                       uint32_t attributes, char letter, bool has_driver)
{
    struct rafkudin *core = five_handles(has_driver);
    bool has_first = first != 3, stops, adds;
    uint64_t status;
    size_t wanted;

    if (first != 0)
        HOLDS(open(core, first_handle, 1, 2, 4, first) == (has_first ? SUCCESS : INVALID));
    has_first = has_first && first != 0;
    status = status_of(letter, has_driver);
    HOLDS(open(core, call->handle, call->byte, call->agent, call->controller, attributes) ==
          status);
    stops = letter == 'F' && has_driver;
    adds = status == SUCCESS && letter != 'C' && call->agent != 0;
    HOLDS(!has_first || times_open(core, first_handle, 1, 2, 4, first) ==
                            (stops ? 0U : letter == 'C' ? 2U : 1U));
    HOLDS(!adds || times_open(core, call->handle, call->byte, call->agent, call->controller,
                              attributes) == 1);
    wanted = (has_first && !stops) + (size_t)adds;
    HOLDS(item_count(core, 1, 1) + item_count(core, 3, 1) == wanted);
    RafkudinFree(core);
}

static void try_letters(uint32_t first, uint64_t first_handle, const struct names *call)
{
    for (size_t at = 0; at < COUNT(second); at++) {
        try_letter(first, first_handle, call, second[at], call->letters[at], false);
        try_letter(first, first_handle, call, second[at], call->letters[at], true);
    }
}

static void try_pairs(void)
{
    for (size_t row = 0; row < COUNT(pairs); row++) {
        const struct names other = {3, 1, 2, 4, "AAAAAAAI"};

        for (size_t at = 0; at < COUNT(by); at++) {
            struct names call = {1, 1, by[at][0], by[at][1], pairs[row].by[at]};

            try_letters(pairs[row].first, 1, &call);
        }
        /* An item of another interface means nothing. */
        try_letters(pairs[row].first, 1, &other);
    }
    for (size_t row = 0; row < COUNT(names); row++)
        try_letters(0, 1, &names[row]);
}

/* What is decided once the second handle has an interface open exclusively, and what closes it. */
static void try_exclusive(void)
{
    struct rafkudin *core = small_core(NULL, 0);

    HOLDS(install(core, 0, 1, 0x10) == 1 && install(core, 0, 2, 0) == 2);
    HOLDS(install(core, 0, 2, 0) == 3);
    HOLDS(open(core, 1, 1, 2, 0, RAFKUDIN_EXCLUSIVE) == SUCCESS);
    HOLDS(open(core, 1, 1, 2, 0, RAFKUDIN_EXCLUSIVE) == DENIED);
    HOLDS(open(core, 1, 1, 3, 0, RAFKUDIN_EXCLUSIVE) == DENIED);
    HOLDS(open(core, 1, 1, 3, 1, RAFKUDIN_BY_DRIVER | RAFKUDIN_EXCLUSIVE) == DENIED);
    HOLDS(open(core, 1, 1, 2, 1, RAFKUDIN_BY_DRIVER) == DENIED);
    HOLDS(open(core, 1, 1, 2, 1, RAFKUDIN_BY_CHILD_CONTROLLER) == INVALID);
    HOLDS(open(core, 1, 1, 2, 1, 3) == INVALID);
    HOLDS(item_count(core, 1, 1) == 1);
    HOLDS(open(core, 1, 1, 2, 3, RAFKUDIN_BY_CHILD_CONTROLLER) == SUCCESS);
    HOLDS(close(core, 1, 1, 2, 0) == SUCCESS);
    HOLDS(close(core, 1, 1, 2, 0) == RAFKUDIN_NOT_FOUND);
    HOLDS(item_count(core, 1, 1) == 1);
    RafkudinFree(core);
}

/* The item of a driver, which manages the first handle, goes with the driver's handle. */
static void try_items(void)
{
    struct rafkudin *core = small_core(NULL, 0);
    struct rafkudin_open item;

    for (uint64_t number = 1; number < 4; number++)
        HOLDS(install(core, 0, 1, 0) == number);
    HOLDS(open(core, 1, 1, 3, 1, RAFKUDIN_BY_DRIVER) == SUCCESS);
    HOLDS(item_count(core, 1, 1) == 1);
    HOLDS(times_open(core, 1, 1, 3, 1, RAFKUDIN_BY_DRIVER) == 1);
    HOLDS(RafkudinAgentItem(core, 3, 0, &item) == SUCCESS && item.handle == 1);
    STOPS(core, 1, 0, 1, 3);
    HOLDS(uninstall(core, 3, 1, 0) == SUCCESS);
    HOLDS(item_count(core, 1, 1) == 0);
    HOLDS(close(core, 1, 1, 3, 1) == INVALID);
    HOLDS(are_stops(core, 1, 0, NULL, 0));
    RafkudinFree(core);
}

/* ---- Drivers ---- */

/* A child that is open exclusively stays, and so do the other one and the driver. */
static void try_children(void)
{
    struct rafkudin_driver driver = driver_for(1, 1, 1);
    struct rafkudin *core;

    add_child(&driver, 2, 0x21);
    add_child(&driver, 2, 0x22);
    core = small_core(&driver, 1);
    HOLDS(install(core, 0, 1, 0x10) == 1 && install(core, 0, BINDING, 0) == 2);
    HOLDS(install(core, 0, 3, 0) == 3);
    HOLDS(connect(core, 1, false) == SUCCESS);
    HOLDS(open(core, 4, 2, 3, 0, RAFKUDIN_EXCLUSIVE) == SUCCESS);
    HAS(core, are_handles, 1, 2, 3, 4, 5);
    HOLDS(value_of(core, 4, 2) == 0x21 && value_of(core, 5, 2) == 0x22);
    HOLDS(disconnect(core, 1, 0) == RAFKUDIN_DEVICE_ERROR);
    HOLDS(disconnect(core, 1, 3) == INVALID);
    HAS(core, are_handles, 1, 2, 3, 4, 5);
    STOPS(core, 1, 0, 1, 2);
    HOLDS(are_stops(core, 1, 3, NULL, 0));
    CHILDREN(core, 1, 2, 4, 5);
    HOLDS(are_children(core, 1, 3, NULL, 0));
    HOLDS(close(core, 4, 2, 3, 0) == SUCCESS);
    /* A stop of the pair would take the handle of the call. */
    HOLDS(open(core, 4, 2, 2, 1, RAFKUDIN_BY_DRIVER) == SUCCESS);
    HOLDS(uninstall(core, 4, 2, 0x21) == DENIED);
    HAS(core, are_handles, 1, 2, 3, 4, 5);
    HOLDS(disconnect(core, 1, 2) == SUCCESS);
    HAS(core, are_handles, 1, 2, 3);
    HOLDS(item_count(core, 1, 1) == 0 && are_stops(core, 1, 0, NULL, 0));
    RafkudinFree(core);
}

/* On handle 2 are the GUIDs 1, with an item that keeps nothing, 2, which the driver on handle 1 has
 * open, 3, which is open exclusively, and 4. */
static struct rafkudin *held_core(bool stops)
{
    struct rafkudin_driver driver = driver_for(1, 2, 2);
    struct rafkudin *core;

    driver.stops = stops;
    core = small_core(&driver, 1);
    HOLDS(install(core, 0, BINDING, 0) == 1 && install(core, 0, 1, 1) == 2);
    for (uint8_t byte = 2; byte < 5; byte++)
        HOLDS(install(core, 2, byte, byte) == 2);
    HOLDS(connect(core, 2, false) == SUCCESS);
    HOLDS(open(core, 2, 1, 1, 0, RAFKUDIN_GET_PROTOCOL) == SUCCESS);
    HOLDS(open(core, 2, 3, 1, 0, RAFKUDIN_EXCLUSIVE) == SUCCESS);
    return core;
}

/* All interfaces of a list stay where one of them can't go: its driver can't be stopped, it is
 * kept, it is out already, or it never was there. */
static void try_refused_lists(void)
{
    struct rafkudin *core = held_core(false);

    HOLDS(uninstall_many(core, 2, "\4\2") == INVALID);
    HOLDS(uninstall_many(core, 2, "\1\3") == INVALID);
    HOLDS(uninstall_many(core, 2, "\4\1\4") == INVALID);
    HOLDS(uninstall_many(core, 2, "\1\5") == INVALID);
    HOLDS(uninstall_many(core, 2, "\2") == INVALID);
    HOLDS(uninstall_many(core, 2, "\3") == INVALID);
    HOLDS(uninstall_many(core, 3, "\1\4") == INVALID);
    HOLDS(are_protocols(core, 2, "\1\2\3\4"));
    for (uint8_t byte = 1; byte < 4; byte++)
        HOLDS(item_count(core, 2, byte) == 1);
    HOLDS(uninstall_many(core, 2, "\1\4") == SUCCESS);
    HOLDS(are_protocols(core, 2, "\2\3"));
    HOLDS(item_count(core, 2, 2) == 1 && item_count(core, 2, 3) == 1);
    HOLDS(install(core, 2, 1, 1) == 2 && item_count(core, 2, 1) == 0);
    RafkudinFree(core);
}

/* A list whose driver is stopped, single interfaces, and one with which the handle goes. */
static void try_served_lists(void)
{
    struct rafkudin *core = held_core(true);

    HOLDS(uninstall_many(core, 2, "") == SUCCESS);
    HOLDS(are_protocols(core, 2, "\1\2\3\4"));
    HOLDS(uninstall_many(core, 2, "\4\2") == SUCCESS);
    HOLDS(are_protocols(core, 2, "\1\3"));
    HOLDS(item_count(core, 2, 1) == 1 && item_count(core, 2, 3) == 1);
    HOLDS(install(core, 2, 2, 2) == 2 && connect(core, 2, false) == SUCCESS);
    HOLDS(uninstall_many(core, 2, "\2") == SUCCESS && uninstall_many(core, 2, "\1") == SUCCESS);
    HOLDS(are_protocols(core, 2, "\3") && item_count(core, 2, 3) == 1);
    HOLDS(install(core, 0, 1, 1) == 3 && install(core, 3, 4, 4) == 3);
    HOLDS(open(core, 2, 3, 3, 0, RAFKUDIN_GET_PROTOCOL) == SUCCESS);
    HOLDS(item_count(core, 2, 3) == 2);
    HOLDS(uninstall_many(core, 3, "\4\1") == SUCCESS);
    HAS(core, are_handles, 1, 2);
    HOLDS(item_count(core, 2, 3) == 1);
    RafkudinFree(core);
}

static void try_versions(void)
{
    struct rafkudin_driver drivers[2] = {driver_for(1, 1, 1), driver_for(2, 1, 1)};
    struct rafkudin *core = small_core(drivers, 2);
    const uint64_t named[4] = {1, 2, 2, 0};

    HOLDS(install(core, 0, 1, 0) == 1 && install(core, 0, BINDING, 0) == 2);
    HOLDS(install(core, 0, BINDING, 1) == 3);
    HOLDS(connect(core, 1, false) == SUCCESS);
    STOPS(core, 1, 0, 1, 3);
    HOLDS(connect(core, 1, false) == RAFKUDIN_NOT_FOUND);
    HOLDS(disconnect(core, 1, 0) == SUCCESS);
    HOLDS(RafkudinConnectController(core, 1, named, 0, false) == SUCCESS);
    HOLDS(item_count(core, 1, 1) == 1 && times_open(core, 1, 1, 2, 1, RAFKUDIN_BY_DRIVER) == 1);
    HOLDS(connect(core, 4, false) == INVALID);
    RafkudinFree(core);
}

/* A driver whose child it supports in turn is started on eight of them. */
static void try_levels(void)
{
    struct rafkudin_driver driver = driver_for(1, 1, 1);
    struct rafkudin *core;

    add_child(&driver, 1, 0);
    core = small_core(&driver, 1);
    HOLDS(registered(core, 1, 5) == 1);
    HOLDS(install(core, 0, 1, 0) == 1 && install(core, 0, BINDING, 0) == 2);
    HOLDS(connect(core, 1, true) == SUCCESS);
    HAS(core, are_events, 5, 5, 5, 5, 5, 5, 5, 5);
    HAS(core, are_handles, 1, 2, 3, 4, 5, 6, 7, 8, 9, 10);
    STOPS(core, 9, 0, 9, 2);
    HOLDS(are_stops(core, 10, 0, NULL, 0));
    STOPS(core, 1, 2, 9, 2, 8, 2, 7, 2, 6, 2, 5, 2, 4, 2, 3, 2, 1, 2);
    STOPS(core, 8, 0, 9, 2, 8, 2);
    CHILDREN(core, 7, 2, 8);
    HOLDS(disconnect(core, 1, 0) == SUCCESS);
    HAS(core, are_handles, 1, 2);
    HOLDS(are_stops(core, 1, 0, NULL, 0));
    RafkudinFree(core);
}

/* The controller is open for a child, which no driver made. */
static void try_open_children(void)
{
    struct rafkudin_driver driver = driver_for(1, 1, 1);
    struct rafkudin *core = small_core(&driver, 1);

    HOLDS(install(core, 0, 1, 0) == 1 && install(core, 0, BINDING, 0) == 2);
    HOLDS(install(core, 0, 1, 0) == 3);
    HOLDS(open(core, 1, 1, 2, 3, RAFKUDIN_BY_CHILD_CONTROLLER) == SUCCESS);
    HOLDS(are_stops(core, 1, 0, NULL, 0));
    CHILDREN(core, 1, 2, 3);
    HOLDS(are_children(core, 3, 2, NULL, 0));
    HOLDS(close(core, 1, 1, 2, 3) == SUCCESS);
    HOLDS(open(core, 1, 1, 2, 1, RAFKUDIN_BY_DRIVER) == SUCCESS);
    STOPS(core, 1, 0, 1, 2);
    HOLDS(are_stops(core, 3, 0, NULL, 0));
    HOLDS(are_children(core, 1, 2, NULL, 0));
    RafkudinFree(core);
}

/* The driver on handle 1 manages the controller 3, where it made 4 and 5, and the driver on handle 2
 * manages these: whoever stops them himself begins with the children. */
static void try_callers_stops(void)
{
    struct rafkudin_driver drivers[2] = {driver_for(1, 1, 1), driver_for(1, 2, 2)};
    struct rafkudin *core;

    add_child(&drivers[0], 2, 0x21);
    add_child(&drivers[0], 2, 0x22);
    core = small_core(drivers, 2);
    HOLDS(install(core, 0, BINDING, 0) == 1 && install(core, 0, BINDING, 1) == 2);
    HOLDS(install(core, 0, 1, 7) == 3);
    for (uint64_t controller = 3; controller < 6; controller++)
        HOLDS(connect(core, controller, false) == SUCCESS);
    STOPS_ON(core, 3, 1, 5, 2, 4, 2, 3, 1);
    STOPS(core, 3, 0, 5, 2, 4, 2, 3, 1);
    STOPS(core, 5, 2, 5, 2);
    CHILDREN(core, 3, 1, 4, 5);
    HOLDS(disconnect(core, 3, 0) == SUCCESS);
    HOLDS(are_stops_on(core, 3, 1, NULL, 0) && are_stops(core, 3, 0, NULL, 0));
    HOLDS(are_stops(core, 5, 2, NULL, 0) && are_children(core, 3, 1, NULL, 0));
    RafkudinFree(core);
}

/* A driver that makes eight children, each with four interfaces. */
static struct rafkudin_driver wide_driver(uint8_t first)
{
    struct rafkudin_driver driver = driver_for(1, 1, 1);

    for (size_t child = 0; child < 8; child++) {
        add_child(&driver, first, 0);
        driver.children[child].interfaces[1] = (struct rafkudin_interface){guid_of(1), 1};
        driver.children[child].interfaces[2] = (struct rafkudin_interface){guid_of(12), 2};
        driver.children[child].interfaces[3] = (struct rafkudin_interface){guid_of(13), 3};
        driver.children[child].count = 4;
    }
    return driver;
}

static void try_wide_children(void)
{
    struct rafkudin_driver driver = wide_driver(11);
    struct rafkudin *core = small_core(&driver, 1);

    HOLDS(registered(core, 13, 6) == 1);
    HOLDS(install(core, 0, 1, 0) == 1 && install(core, 0, BINDING, 0) == 2);
    HOLDS(connect(core, 1, false) == SUCCESS);
    HAS(core, are_events, 6, 6, 6, 6, 6, 6, 6, 6);
    HAS(core, are_handles, 1, 2, 3, 4, 5, 6, 7, 8, 9, 10);
    CHILDREN(core, 1, 2, 3, 4, 5, 6, 7, 8, 9, 10);
    for (uint64_t child = 3; child < 11; child++) {
        HOLDS(are_protocols(core, child, "\13\1\14\15"));
        HOLDS(value_of(core, child, 11) == 0 && value_of(core, child, 1) == 1);
        HOLDS(value_of(core, child, 12) == 2 && value_of(core, child, 13) == 3);
    }
    RafkudinFree(core);
}

/* Each child is a driver handle itself, until there is no room for eight more handles. */
static void try_crowd(void)
{
    static uint64_t handles[RAFKUDIN_MAX_HANDLES];
    struct rafkudin_driver driver = wide_driver(BINDING);
    struct rafkudin *core = small_core(&driver, 1);
    uint64_t count = 0;
    struct rafkudin_interface interface;

    HOLDS(install_both(core, 0, 1, 2) == 1);
    HOLDS(install(core, 1, BINDING, 0) == 1);
    HOLDS(connect(core, 1, true) == SUCCESS);
    HOLDS(RafkudinHandlesInto(core, handles, RAFKUDIN_MAX_HANDLES, &count) == SUCCESS);
    HOLDS(count == 4089);
    for (uint64_t at = 0; at < count; at++) {
        HOLDS(handles[at] == at + 1);
        HOLDS(RafkudinInterface(core, at + 1, at == 0 ? 2 : 3, &interface) == SUCCESS);
        HOLDS(RafkudinInterface(core, at + 1, at == 0 ? 3 : 4, &interface) == RAFKUDIN_NOT_FOUND);
    }
    RafkudinFree(core);
}

int main(void)
{
    try_installations();
    try_two_at_once();
    try_changes();
    try_most_handles();
    try_orders();
    try_registrations();
    try_pairs();
    try_exclusive();
    try_items();
    try_children();
    try_refused_lists();
    try_served_lists();
    try_versions();
    try_levels();
    try_open_children();
    try_callers_stops();
    try_wide_children();
    try_crowd();
    return points_end("handles_by_hand");
}
