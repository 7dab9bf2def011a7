/* Measures how much stack the library's calls take.
 *
 * Each call runs on a stack of its own that is filled with a pattern, and what it changed is
 * counted. It prints the bytes of each function and what docs/C.md states of it, and ends with
 * status 1 where one takes more. */
#define _XOPEN_SOURCE 700
#include "../../include/rafkudin.h"

#include <inttypes.h>
#include <stdio.h>
#include <stdlib.h>
#include <string.h>
#include <ucontext.h>

#define STACK 262144
#define PATTERN 0xa5
#define ENTRIES 600

static uint8_t stack[STACK] __attribute__((aligned(64)));
static ucontext_t caller, callee;
static struct rafkudin *core;
static uint64_t one, two;
static uint64_t placed[300];
static uint8_t bytes[65536];

static const struct rafkudin_guid bus = {{1}}, disk = {{2}};
static const struct rafkudin_guid binding = {{0xab, 0x31, 0xa0, 0x18, 0x43, 0xb4, 0x1a, 0x4d, 0xa5,
                                              0xc0, 0x0c, 0x09, 0x26, 0x1e, 0x9f, 0x71}};

static struct rafkudin_driver drivers[8];

/* Eight drivers, each of which makes the controller that the next one supports. */
static void fill_drivers(void)
{
    for (unsigned at = 0; at < 8; at++) {
        struct rafkudin_driver *driver = &drivers[at];

        driver->version = at;
        driver->stops = true;
        driver->needs_count = driver->opens_count = driver->children_count = 1;
        driver->needs[0].bytes[0] = driver->opens[0].bytes[0] = (uint8_t)(at + 1);
        driver->children[0].count = 1;
        driver->children[0].interfaces[0].guid.bytes[0] = (uint8_t)(at + 2);
    }
}

/* A memory map of many entries, every other one free. */
static size_t fill_map(void)
{
    memset(bytes, 0, sizeof bytes);
    for (size_t at = 0; at < ENTRIES; at++) {
        uint8_t *record = bytes + at * RAFKUDIN_DESCRIPTOR_SIZE;
        uint64_t start = (uint64_t)at << 16, pages = 16;

        record[0] = at % 2 == 0 ? 7 : 4;
        memcpy(record + 8, &start, 8);
        memcpy(record + 24, &pages, 8);
        record[32] = 0xf;
    }
    return ENTRIES * RAFKUDIN_DESCRIPTOR_SIZE;
}

static void make(void)
{
    size_t size = fill_map();

    RafkudinFree(core);
    core = NULL;
    if (RafkudinMake(bytes, size, RAFKUDIN_DESCRIPTOR_SIZE, 16, drivers, 8, &core) !=
        RAFKUDIN_SUCCESS)
        abort();
    RafkudinCertify(core, true);
    RafkudinRecord(core, true);
}

static void place(void)
{
    RafkudinPlace(bytes, fill_map(), RAFKUDIN_DESCRIPTOR_SIZE, 16, 6, 3, UINT64_MAX, &one);
}

static void allocate_pages(void)
{
    for (uint32_t at = 0; at < 300; at++)
        RafkudinAllocatePages(core, RAFKUDIN_ANY_PAGES, 1 + at % 6, 1 + at % 9, &placed[at]);
}

static void free_pages(void)
{
    for (uint32_t at = 0; at < 300; at += 2)
        RafkudinFreePages(core, placed[at], 1);
}

static void reply_line(void)
{
    RafkudinReplyLine(core, 1, bytes, sizeof bytes, &two);
}

static void certificate(void)
{
    RafkudinCertificate(core, bytes, sizeof bytes, &two);
}

static void check(void)
{
    RafkudinCheck(bytes, (size_t)two, &one);
}

static void get_memory_map(void)
{
    two = sizeof bytes;
    RafkudinGetMemoryMap(core, &two, bytes, &one, NULL, NULL);
}

static void allocate_pool(void)
{
    for (uint32_t at = 0; at < 300; at++)
        RafkudinAllocatePool(core, 4, 40 * at, &one);
}

static void free_pool(void)
{
    RafkudinFreePool(core, one);
}

static void install(void)
{
    struct rafkudin_interface many[16];

    for (uint64_t at = 0; at < 8; at++) {
        one = 0;
        RafkudinInstallProtocolInterface(core, &one, &binding, 0, at);
    }
    memset(many, 0, sizeof many);
    for (unsigned at = 0; at < 16; at++)
        many[at].guid.bytes[1] = (uint8_t)(at + 1);
    for (unsigned at = 0; at < 100; at++) {
        one = 0;
        RafkudinInstallMultipleProtocolInterfaces(core, &one, many, 16);
    }
    RafkudinInstallProtocolInterface(core, &one, &bus, 0, 5);
}

static void connect(void)
{
    RafkudinConnectController(core, one, NULL, 0, true);
}

static void reinstall(void)
{
    RafkudinReinstallProtocolInterface(core, one, &bus, 5, 6);
}

static void open(void)
{
    RafkudinOpenProtocol(core, one, &bus, &two, 1, 0, RAFKUDIN_EXCLUSIVE);
}

static void information(void)
{
    RafkudinOpenProtocolInformation(core, one, &bus, &two, &two);
}

static void locate(void)
{
    RafkudinLocateHandleBuffer(core, RAFKUDIN_BY_PROTOCOL, &disk, 0, &two, &two);
}

static void disconnect(void)
{
    RafkudinDisconnectController(core, one, 0, 0);
}

static void uninstall(void)
{
    RafkudinUninstallProtocolInterface(core, one, &bus, 6);
}

static void uninstall_many(void)
{
    struct rafkudin_interface many[16];

    memset(many, 0, sizeof many);
    for (unsigned at = 0; at < 16; at++)
        many[at].guid.bytes[1] = (uint8_t)(at + 1);
    RafkudinUninstallMultipleProtocolInterfaces(core, one - 1, many, 16);
}

static void trace_line(void)
{
    struct rafkudin_interface many[16];
    const struct rafkudin_call call = {
        .service = RAFKUDIN_CALL_INSTALL_MULTIPLE_PROTOCOL_INTERFACES,
        .interfaces = many,
        .interface_count = 16,
    };

    memset(many, 0, sizeof many);
    RafkudinTraceLine(core, &call, bytes, sizeof bytes, &two);
}

static void give_back(void)
{
    RafkudinFree(core);
}

/* Runs calls on the stack that is measured. */
static void run(void (*calls)(void))
{
    memset(stack, PATTERN, STACK);
    getcontext(&callee);
    callee.uc_stack.ss_sp = stack;
    callee.uc_stack.ss_size = STACK;
    callee.uc_link = &caller;
    makecontext(&callee, calls, 0);
    swapcontext(&caller, &callee);
}

/* A function, what calls it, and the bytes of stack that docs/C.md states of it. */
struct measured {
    const char *name;
    void (*calls)(void);
    size_t stated;
};

static const struct measured all[] = {
    {"RafkudinMake", make, 20000},
    {"RafkudinPlace", place, 22000},
    {"RafkudinAllocatePages", allocate_pages, 6000},
    {"RafkudinReplyLine", reply_line, 5000},
    {"RafkudinCertificate", certificate, 5000},
    {"RafkudinCheck", check, 5000},
    {"RafkudinFreePages", free_pages, 6000},
    {"RafkudinGetMemoryMap", get_memory_map, 5000},
    {"RafkudinAllocatePool", allocate_pool, 6000},
    {"RafkudinFreePool", free_pool, 6000},
    {"RafkudinInstallMultipleProtocolInterfaces", install, 12000},
    {"RafkudinConnectController", connect, 7000},
    {"RafkudinReinstallProtocolInterface", reinstall, 8000},
    {"RafkudinOpenProtocol", open, 5000},
    {"RafkudinOpenProtocolInformation", information, 6000},
    {"RafkudinLocateHandleBuffer", locate, 6000},
    {"RafkudinDisconnectController", disconnect, 5000},
    {"RafkudinUninstallProtocolInterface", uninstall, 5000},
    {"RafkudinUninstallMultipleProtocolInterfaces", uninstall_many, 7000},
    {"RafkudinTraceLine", trace_line, 5000},
    {"RafkudinFree", give_back, 10000},
};

/* The bytes of the stack that calls take. */
static size_t taken_by(void (*calls)(void))
{
    size_t left = 0;

    run(calls);
    while (left < STACK && stack[left] == PATTERN)
        left++;
    return STACK - left;
}

int main(void)
{
    int status = 0;

    fill_drivers();
    for (size_t at = 0; at < sizeof all / sizeof *all; at++) {
        size_t taken = taken_by(all[at].calls);

        printf("%-43s %6zu of %6zu\n", all[at].name, taken, all[at].stated);
        if (taken > all[at].stated)
            status = 1;
    }
    return status;
}
