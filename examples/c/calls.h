/* The lines of a trace as calls. */
#ifndef CALLS_H
#define CALLS_H

#include "../../include/rafkudin.h"
#include "words.h"

/* The verbs of a trace, in the order of their table. */
enum verb {
    PAGES,
    FREE_PAGES,
    MAP,
    EXIT,
    POOL,
    FREE_POOL,
    READ,
    WRITE,
    INSTALL,
    INSTALL_MANY,
    UNINSTALL,
    REINSTALL,
    OPEN,
    CLOSE,
    INFORMATION,
    HANDLE_PROTOCOL,
    NOTIFY,
    LOCATE,
    LOCATE_BUFFER,
    LOCATE_PROTOCOL,
    PROTOCOLS,
    CONNECT,
    DISCONNECT,
    PATH,
    LIST,
    VERBS
};

/* What a line asks for: the words that are numbers, in their order, and what else its verb takes.
 */
struct call {
    enum verb verb;
    uint64_t numbers[4];
    struct rafkudin_guid guid;
    uint8_t *bytes; /* of `write` */
    size_t byte_count;
    struct rafkudin_interface *interfaces; /* of `install-many` */
    uint64_t *drivers;                     /* of `connect` */
    size_t count;
};

/* How a verb is written. */
const char *verb_name(enum verb verb);

/* The call of a line of a number, or false for a line that is skipped. Where the line is wrong the
 * program ends. The arrays of a call are never null, and hold until the next line is read. */
bool call_read(struct call *call, const struct line *line, uint64_t number);
#endif
