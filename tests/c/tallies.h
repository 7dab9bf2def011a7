/* How often services return their statuses. */
#ifndef TALLIES_H
#define TALLIES_H

#include <stddef.h>
#include <stdint.h>

enum service {
    INSTALL,
    INSTALL_MANY,
    UNINSTALL,
    REINSTALL,
    REGISTER,
    LOCATE_ALL,
    LOCATE_NEXT,
    LOCATE_HOLDERS,
    LOCATE_NONE,
    LOCATE_BUFFER,
    LOCATE_PROTOCOL,
    PROTOCOLS,
    OPEN,
    CLOSE,
    HANDLE_PROTOCOL,
    INFORMATION,
    CONNECT,
    CONNECT_ALL,
    DISCONNECT,
    SERVICES
};

/* The least number of calls of a service that return a status. */
struct least {
    enum service service;
    uint64_t status;
    unsigned long calls;
};

/* Counts a call. */
void tally(enum service service, uint64_t status);

/* Forgets all calls so far. */
void tallies_clear(void);

/* Whether there were calls enough for each row; then all are forgotten. */
void try_least(const struct least *least, size_t rows);
#endif
