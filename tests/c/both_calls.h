/* Calls that are made on a core and on plain lists: each compares the status and all that is
 * returned, and returns the status. */
#ifndef BOTH_CALLS_H
#define BOTH_CALLS_H

#include "plain_lists.h"

/* A core, the plain lists that it is compared with, and the seed of what is drawn. */
struct both {
    struct rafkudin *core;
    struct lists *lists;
    uint64_t seed;
};

/* Installs on a handle, or on a new one where that is 0; of many interfaces there are at most
 * three. */
uint64_t both_install(struct both *both, uint64_t handle, uint32_t kind, struct named named);
uint64_t both_install_many(struct both *both, uint64_t handle, const struct named *named,
                           size_t count);

/* The other services. */
uint64_t both_uninstall(struct both *both, uint64_t handle, struct named named);
uint64_t both_reinstall(struct both *both, uint64_t handle, struct named named, uint64_t value);
uint64_t both_register(struct both *both, uint8_t byte, uint64_t event);
uint64_t both_locate(struct both *both, uint32_t search, uint8_t byte, uint64_t key, uint64_t room);
uint64_t both_locate_buffer(struct both *both, uint32_t search, uint8_t byte, uint64_t key);
uint64_t both_locate_protocol(struct both *both, uint8_t byte, uint64_t key);
uint64_t both_protocols(struct both *both, uint64_t handle);
uint64_t both_open(struct both *both, const struct item *open);
uint64_t both_close(struct both *both, const struct item *closed);
uint64_t both_handle_protocol(struct both *both, uint64_t handle, uint8_t byte);
uint64_t both_information(struct both *both, uint64_t handle, uint8_t byte);
uint64_t both_connect(struct both *both, uint64_t handle, bool is_recursive);
uint64_t both_disconnect(struct both *both, uint64_t handle, uint64_t driver);

/* Compares all handles, their interfaces, the items on these and those of each handle as an agent,
 * the children of each pair, and which registrations are still to be served. */
void both_compare(struct both *both);

/* Compares all this and, one after the other, the handles that each registration is still to be
 * served; then ends the core and its lists. */
void both_end(struct both *both);
#endif
