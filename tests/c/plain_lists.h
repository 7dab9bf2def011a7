/* Handles, interfaces, open items, registrations and table drivers in plain arrays: each search
 * walks along one. Tests compare the library with them. GUIDs are bytes here. */
#ifndef PLAIN_LISTS_H
#define PLAIN_LISTS_H

#include "small_core.h"

/* The value of a child's interface. */
#define CHILD_VALUE 7U

/* A GUID and a value to be installed. */
struct named {
    uint8_t guid;
    uint64_t value;
};

/* The value of a GUID on a handle, with the stamp of its installation. */
struct interface {
    uint64_t handle;
    uint8_t guid;
    uint64_t value;
    uint64_t stamp;
};

/* An agent's and a controller's opens of a GUID on a handle. */
struct item {
    uint64_t handle;
    uint8_t guid;
    uint64_t agent;
    uint64_t controller;
    uint32_t attributes;
    uint32_t count;
};

struct pair {
    uint64_t controller;
    uint64_t agent;
};

/* A handle that a driver made. */
struct made {
    uint64_t handle;
    struct pair by;
};

/* An event for a GUID, with the stamp of the last interface that was taken by its key. */
struct registration {
    uint8_t guid;
    uint64_t event;
    uint64_t mark;
};

/* A driver that needs a GUID, opens it, and makes a child with another, if that is not 0. */
struct plain_driver {
    uint32_t version;
    uint8_t opens;
    uint8_t child;
    bool stops;
};

/* Why a stop is refused. */
enum hindrance {
    NONE,
    NO_DRIVER, /* an agent is no driver handle */
    STAYS,     /* a driver does not stop */
    ITEM,      /* an item of another pair is on a handle that would go */
    HANDLE,    /* the handle of the call would go */
    OPENER,    /* the agent or the controller of an open would go */
    AGENT,     /* the agent of an open is one that would be stopped */
    KEPT,      /* an item would be left on the interface */
    HINDRANCES
};

/* All of it, each array in the order in which it grew. `numbers` is what the last call returned
 * beside its status, and `refused` counts the stops that were refused, by hindrance. */
struct lists {
    uint64_t handles[4096];
    struct made made[4096];
    struct interface interfaces[16384];
    struct item items[16384];
    struct registration registrations[4096];
    uint64_t numbers[8192];
    size_t handle_count, made_count, interface_count, item_count, registration_count, number_count;
    unsigned long refused[HINDRANCES];
    uint64_t last_number, last_stamp;
    const struct plain_driver *drivers;
    size_t driver_count;
};

/* Empty lists, for these drivers. */
struct lists *lists_new(const struct plain_driver *drivers, size_t count);

bool is_live(const struct lists *lists, uint64_t handle);

/* The interface of a GUID on a handle, or null. */
const struct interface *interface_of(const struct lists *lists, uint64_t handle, uint8_t guid);

/* The GUID on a handle that was installed first, 0 where there is none. */
uint8_t first_guid(const struct lists *lists, uint64_t handle);

/* The services. Each returns the status, and has `numbers` then. */
uint64_t plain_install(struct lists *lists, uint64_t handle, uint32_t kind,
                       const struct named *named, size_t count);
uint64_t plain_uninstall(struct lists *lists, uint64_t handle, uint8_t guid, uint64_t value);
uint64_t plain_reinstall(struct lists *lists, uint64_t handle, uint8_t guid, uint64_t old_value,
                         uint64_t new_value);
uint64_t plain_register(struct lists *lists, uint8_t guid, uint64_t event);
uint64_t plain_locate(struct lists *lists, uint32_t search, uint8_t guid, uint64_t key,
                      uint64_t room);
uint64_t plain_locate_protocol(struct lists *lists, uint8_t guid, uint64_t key);
uint64_t plain_protocols(struct lists *lists, uint64_t handle);
uint64_t plain_open(struct lists *lists, const struct item *open);
uint64_t plain_close(struct lists *lists, const struct item *closed);
uint64_t plain_handle_protocol(struct lists *lists, uint64_t handle, uint8_t guid);
uint64_t plain_connect(struct lists *lists, uint64_t controller, bool is_recursive);
uint64_t plain_disconnect(struct lists *lists, uint64_t handle, uint64_t driver);

/* The children of a pair, in `numbers`: the handles that it made, and then those for which its
 * agent has an interface of its controller open as for a child, each once. */
void plain_children(struct lists *lists, struct pair pair);

/* ---- What the drivers' part needs of the other ---- */

/* The refusal of an open by the table alone, before a driver is stopped; SUCCESS where there is
 * none. */
uint64_t open_refusal(const struct lists *lists, const struct item *open);
uint64_t make_handle(struct lists *lists);
void return_number(struct lists *lists, uint64_t number);
void push_item(struct lists *lists, const struct item *item);

/* Installs an interface, or gives one another value where it is: it has a new stamp, and the events
 * of its GUID are returned. */
void push_interface(struct lists *lists, uint64_t handle, uint8_t guid, uint64_t value);
void replace_value(struct lists *lists, uint64_t handle, uint8_t guid, uint64_t value);

/* Takes out the items on an interface; an interface, and with the last one its handle; a handle
 * with all that names it. */
void drop_items(struct lists *lists, uint64_t handle, uint8_t guid);
void drop_interface(struct lists *lists, uint64_t handle, uint8_t guid);
void drop_handle(struct lists *lists, uint64_t handle);

/* Stops the driver that is in the way of an open, if nothing hinders that. */
void stop_for_open(struct lists *lists, const struct item *open);
#endif
