/* The lines of a trace that the library makes of calls. */
#include "call_lines.h"

#include "fault.h"

#include <inttypes.h>

/* The service of each verb, and a letter for each of its words that are numbers: the field that the
 * number goes to. */
static const struct {
    uint32_t service;
    const char *fields;
} services[VERBS] = {
    [PAGES] = {RAFKUDIN_CALL_ALLOCATE_PAGES, "tmpa"},
    [FREE_PAGES] = {RAFKUDIN_CALL_FREE_PAGES, "ap"},
    [MAP] = {RAFKUDIN_CALL_GET_MEMORY_MAP, "s"},
    [EXIT] = {RAFKUDIN_CALL_EXIT_BOOT_SERVICES, "k"},
    [POOL] = {RAFKUDIN_CALL_ALLOCATE_POOL, "ms"},
    [FREE_POOL] = {RAFKUDIN_CALL_FREE_POOL, "a"},
    [READ] = {RAFKUDIN_CALL_POOL_READ, "as"},
    [WRITE] = {RAFKUDIN_CALL_POOL_WRITE, "a"},
    [INSTALL] = {RAFKUDIN_CALL_INSTALL_PROTOCOL_INTERFACE, "htv"},
    [INSTALL_MANY] = {RAFKUDIN_CALL_INSTALL_MULTIPLE_PROTOCOL_INTERFACES, "h"},
    [UNINSTALL] = {RAFKUDIN_CALL_UNINSTALL_PROTOCOL_INTERFACE, "hv"},
    [REINSTALL] = {RAFKUDIN_CALL_REINSTALL_PROTOCOL_INTERFACE, "hvn"},
    [OPEN] = {RAFKUDIN_CALL_OPEN_PROTOCOL, "hgcb"},
    [CLOSE] = {RAFKUDIN_CALL_CLOSE_PROTOCOL, "hgc"},
    [INFORMATION] = {RAFKUDIN_CALL_OPEN_PROTOCOL_INFORMATION, "h"},
    [HANDLE_PROTOCOL] = {RAFKUDIN_CALL_HANDLE_PROTOCOL, "h"},
    [NOTIFY] = {RAFKUDIN_CALL_REGISTER_PROTOCOL_NOTIFY, "e"},
    [LOCATE] = {RAFKUDIN_CALL_LOCATE_HANDLE, "qks"},
    [LOCATE_BUFFER] = {RAFKUDIN_CALL_LOCATE_HANDLE_BUFFER, "qk"},
    [LOCATE_PROTOCOL] = {RAFKUDIN_CALL_LOCATE_PROTOCOL, "k"},
    [PROTOCOLS] = {RAFKUDIN_CALL_PROTOCOLS_PER_HANDLE, "h"},
    [CONNECT] = {RAFKUDIN_CALL_CONNECT_CONTROLLER, "hr"},
    [DISCONNECT] = {RAFKUDIN_CALL_DISCONNECT_CONTROLLER, "hd"},
    [PATH] = {RAFKUDIN_CALL_LOCATE_DEVICE_PATH, "a"},
};

/* Puts a number into the field of a letter. */
static void set_field(struct rafkudin_call *call, char letter, uint64_t number)
{
    switch (letter) {
    case 't':
        call->type = (uint32_t)number;
        break;
    case 'm':
        call->memory_type = (uint32_t)number;
        break;
    case 'q':
        call->search_type = (uint32_t)number;
        break;
    case 'b':
        call->attributes = (uint32_t)number;
        break;
    case 'r':
        call->recursive = number != 0;
        break;
    case 'h':
        call->handle = number;
        break;
    case 'g':
        call->agent = number;
        break;
    case 'c':
        call->controller = number;
        break;
    case 'd':
        call->driver = number;
        break;
    case 'v':
        call->value = number;
        break;
    case 'n':
        call->new_value = number;
        break;
    case 'e':
        call->event = number;
        break;
    case 'k':
        call->key = number;
        break;
    case 'a':
        call->address = number;
        break;
    case 'p':
        call->pages = number;
        break;
    case 's':
        call->size = number;
        break;
    }
}

/* The call of a line in the library's form. */
static struct rafkudin_call call_for_library(const struct call *call)
{
    struct rafkudin_call made = {
        .service = services[call->verb].service,
        .protocol = call->guid,
        .bytes = call->bytes,
        .byte_count = call->byte_count,
    };
    const char *letters = services[call->verb].fields;

    for (size_t at = 0; letters[at] != '\0'; at++)
        set_field(&made, letters[at], call->numbers[at]);
    if (call->verb == INSTALL_MANY) {
        made.interfaces = call->interfaces;
        made.interface_count = call->count;
    }
    if (call->verb == CONNECT) {
        made.drivers = call->drivers;
        made.driver_count = call->count;
    }
    return made;
}

void call_line_append(struct text *text, const struct rafkudin *core, const struct call *call)
{
    static uint8_t line[MAX_LINE_LENGTH + 1];
    struct rafkudin_call made;
    uint64_t length = 0, status;

    if (call->verb == LIST) {
        text_print(text, "list\n");
        return;
    }
    made = call_for_library(call);
    status = RafkudinTraceLine(core, &made, line, sizeof line, &length);
    if (status != RAFKUDIN_SUCCESS)
        fail("the line of a call: status 0x%" PRIx64, status);
    text_append(text, line, length);
}
