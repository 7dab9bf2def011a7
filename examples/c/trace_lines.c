/* The line that the library makes of a call of each service, against the line as it is written by
 * hand; and what it returns where there is none. Each point that is not as said is printed on
 * standard error, and then the status is 1. */
#include "points.h"

#include <rafkudin.h>

#include <stdlib.h>
#include <string.h>

#define DISK "5b1b31a1-9562-11d2-8e3f-00a0c969723b"
#define ALL_BITS 0xffffffffffffffffULL

static const struct rafkudin_guid disk = {{0xa1, 0x31, 0x1b, 0x5b, 0x62, 0x95, 0xd2, 0x11, 0x8e,
                                           0x3f, 0x00, 0xa0, 0xc9, 0x69, 0x72, 0x3b}};
static const uint8_t bytes[3] = {0x00, 0xa5, 0xff};
static const uint64_t drivers[2] = {8, 9};
static const struct rafkudin_interface interfaces[2] = {
    {{{0x91, 0x6e, 0x57, 0x09, 0x3f, 0x6d, 0xd2, 0x11, 0x8e, 0x39, 0x00, 0xa0, 0xc9, 0x69, 0x72,
       0x3b}},
     0x10},
    {{{0xa1, 0x31, 0x1b, 0x5b, 0x62, 0x95, 0xd2, 0x11, 0x8e, 0x3f, 0x00, 0xa0, 0xc9, 0x69, 0x72,
       0x3b}},
     0},
};

static struct rafkudin *make_core(void)
{
    uint8_t record[RAFKUDIN_DESCRIPTOR_SIZE] = {[0] = 7, [9] = 0x10, [25] = 1};
    struct rafkudin *core = NULL;

    if (RafkudinMake(record, sizeof record, sizeof record, 1, NULL, 0, &core) != RAFKUDIN_SUCCESS)
        abort();
    return core;
}

/* Whether this is the line of a call: with the room that it takes, and with more; and with a byte
 * less of room none of it is written. */
static bool is_line(struct rafkudin *core, const struct rafkudin_call *call, const char *line)
{
    size_t wanted = strlen(line);
    uint8_t text[256];
    uint64_t length = 0;

    memset(text, '?', sizeof text);
    if (RafkudinTraceLine(core, call, text, wanted - 1, &length) != RAFKUDIN_BUFFER_TOO_SMALL ||
        length != wanted || text[0] != '?')
        return false;
    length = 0;
    if (RafkudinTraceLine(core, call, text, wanted, &length) != RAFKUDIN_SUCCESS ||
        length != wanted || memcmp(text, line, wanted) != 0 || text[wanted] != '?')
        return false;
    memset(text, '?', sizeof text);
    return RafkudinTraceLine(core, call, text, sizeof text, &length) == RAFKUDIN_SUCCESS &&
           length == wanted && memcmp(text, line, wanted) == 0 && text[wanted] == '?';
}

/* A call of which all fields are set, so that a field that plays no part may be anything. */
static struct rafkudin_call with_all_fields(uint32_t service)
{
    struct rafkudin_call call = {
        .service = service,
        .type = 1,
        .memory_type = 4,
        .search_type = 2,
        .attributes = 0x20,
        .recursive = true,
        .protocol = disk,
        .handle = 3,
        .agent = 5,
        .controller = 6,
        .driver = 7,
        .value = 0x20,
        .new_value = ALL_BITS,
        .event = 77,
        .key = 12,
        .address = 0x7ff008,
        .pages = 10,
        .size = 4096,
        .bytes = bytes,
        .byte_count = sizeof bytes,
        .interfaces = interfaces,
        .interface_count = 2,
        .drivers = drivers,
        .driver_count = 2,
    };

    return call;
}

/* The line of the call that has all these fields, by its service's number. */
static const char *const lines[25] = {
    [RAFKUDIN_CALL_ALLOCATE_PAGES] = "pages 1 4 10 0x7ff008\n",
    [RAFKUDIN_CALL_FREE_PAGES] = "free-pages 0x7ff008 10\n",
    [RAFKUDIN_CALL_GET_MEMORY_MAP] = "map 4096\n",
    [RAFKUDIN_CALL_ALLOCATE_POOL] = "pool 4 4096\n",
    [RAFKUDIN_CALL_FREE_POOL] = "free-pool 0x7ff008\n",
    [RAFKUDIN_CALL_POOL_READ] = "read 0x7ff008 4096\n",
    [RAFKUDIN_CALL_POOL_WRITE] = "write 0x7ff008 00a5ff\n",
    [RAFKUDIN_CALL_INSTALL_PROTOCOL_INTERFACE] = "install 3 " DISK " 1 0x20\n",
    [RAFKUDIN_CALL_INSTALL_MULTIPLE_PROTOCOL_INTERFACES] =
        "install-many 3 09576e91-6d3f-11d2-8e39-00a0c969723b 0x10 " DISK " 0x0\n",
    [RAFKUDIN_CALL_UNINSTALL_PROTOCOL_INTERFACE] = "uninstall 3 " DISK " 0x20\n",
    [RAFKUDIN_CALL_REINSTALL_PROTOCOL_INTERFACE] =
        "reinstall 3 " DISK " 0x20 0xffffffffffffffff\n",
    [RAFKUDIN_CALL_REGISTER_PROTOCOL_NOTIFY] = "notify " DISK " 77\n",
    [RAFKUDIN_CALL_LOCATE_HANDLE] = "locate 2 " DISK " 12 4096\n",
    [RAFKUDIN_CALL_LOCATE_HANDLE_BUFFER] = "locate-buffer 2 " DISK " 12\n",
    [RAFKUDIN_CALL_LOCATE_PROTOCOL] = "locate-protocol " DISK " 12\n",
    [RAFKUDIN_CALL_PROTOCOLS_PER_HANDLE] = "protocols 3\n",
    [RAFKUDIN_CALL_OPEN_PROTOCOL] = "open 3 " DISK " 5 6 32\n",
    [RAFKUDIN_CALL_CLOSE_PROTOCOL] = "close 3 " DISK " 5 6\n",
    [RAFKUDIN_CALL_OPEN_PROTOCOL_INFORMATION] = "information 3 " DISK "\n",
    [RAFKUDIN_CALL_HANDLE_PROTOCOL] = "handle-protocol 3 " DISK "\n",
    [RAFKUDIN_CALL_CONNECT_CONTROLLER] = "connect 3 1 8 9\n",
    [RAFKUDIN_CALL_DISCONNECT_CONTROLLER] = "disconnect 3 7\n",
    [RAFKUDIN_CALL_LOCATE_DEVICE_PATH] = "path " DISK " 0x7ff008\n",
    [RAFKUDIN_CALL_EXIT_BOOT_SERVICES] = "exit 12\n",
};

static void try_services(struct rafkudin *core)
{
    for (uint32_t service = 1; service < 25; service++) {
        struct rafkudin_call call = with_all_fields(service);

        HOLDS(is_line(core, &call, lines[service]));
    }
}

/* Calls with nothing in their lists, and with the least and the largest numbers. */
static void try_borders(struct rafkudin *core)
{
    struct rafkudin_call call = {.service = RAFKUDIN_CALL_CONNECT_CONTROLLER};

    HOLDS(is_line(core, &call, "connect 0 0\n"));
    call = (struct rafkudin_call){.service = RAFKUDIN_CALL_POOL_WRITE};
    HOLDS(is_line(core, &call, "write 0x0 -\n"));
    call = (struct rafkudin_call){.service = RAFKUDIN_CALL_GET_MEMORY_MAP, .size = 16777216};
    HOLDS(is_line(core, &call, "map 16777216\n"));
    call = (struct rafkudin_call){
        .service = RAFKUDIN_CALL_POOL_READ, .address = ALL_BITS, .size = 65536};
    HOLDS(is_line(core, &call, "read 0xffffffffffffffff 65536\n"));
    call = (struct rafkudin_call){.service = RAFKUDIN_CALL_ALLOCATE_PAGES,
                                  .type = UINT32_MAX,
                                  .memory_type = UINT32_MAX,
                                  .pages = ALL_BITS};
    HOLDS(is_line(core, &call, "pages 4294967295 4294967295 18446744073709551615 0x0\n"));
}

/* What is returned of a call, which may leave neither text nor length changed. */
static uint64_t refusal(struct rafkudin *core, const struct rafkudin_call *call)
{
    uint8_t text[4] = "????";
    uint64_t length = 7, status = RafkudinTraceLine(core, call, text, sizeof text, &length);

    HOLDS(length == 7 && memcmp(text, "????", 4) == 0);
    return status;
}

static void try_refusals(struct rafkudin *core)
{
    /* A byte takes two digits, so that the line of the first has as many bytes as a line may. */
    static uint8_t many[32763], text[65537];
    struct rafkudin_call call = with_all_fields(0);
    uint64_t length = 0;

    HOLDS(refusal(core, &call) == RAFKUDIN_INVALID_PARAMETER);
    call.service = 25;
    HOLDS(refusal(core, &call) == RAFKUDIN_INVALID_PARAMETER);
    call.service = UINT32_MAX;
    HOLDS(refusal(core, &call) == RAFKUDIN_INVALID_PARAMETER);
    call = (struct rafkudin_call){.service = RAFKUDIN_CALL_GET_MEMORY_MAP, .size = 16777217};
    HOLDS(refusal(core, &call) == RAFKUDIN_NOT_FOUND);
    call = (struct rafkudin_call){.service = RAFKUDIN_CALL_POOL_READ, .size = 65537};
    HOLDS(refusal(core, &call) == RAFKUDIN_NOT_FOUND);
    call = with_all_fields(RAFKUDIN_CALL_INSTALL_MULTIPLE_PROTOCOL_INTERFACES);
    call.interface_count = 0;
    HOLDS(refusal(core, &call) == RAFKUDIN_NOT_FOUND);
    call = (struct rafkudin_call){.service = RAFKUDIN_CALL_POOL_WRITE, .bytes = many};
    call.byte_count = 32763;
    HOLDS(RafkudinTraceLine(core, &call, text, sizeof text, &length) == RAFKUDIN_SUCCESS);
    HOLDS(length == 65537 && text[65536] == '\n');
    call.address = 0x10;
    HOLDS(refusal(core, &call) == RAFKUDIN_NOT_FOUND);
}

int main(void)
{
    struct rafkudin *core = make_core();
    uint64_t left = RafkudinCallsLeft(core);

    try_services(core);
    try_borders(core);
    try_refusals(core);
    HOLDS(RafkudinCallsLeft(core) == left);
    RafkudinFree(core);
    return points_end("trace_lines");
}
