/* Passes null pointers to each function of rafkudin.h. A function returns INVALID_PARAMETER for a
 * pointer that must not be null, and uses up no call; beside a count of 0 null is as any other
 * pointer. Each point that is not as said is printed on standard error, and then the status is 1. */
#include "points.h"

#include <rafkudin.h>

#include <stdio.h>
#include <stdlib.h>
#include <string.h>

static const struct rafkudin_guid disk = {{1}};

/* A core with 256 free pages from page 1 on, and a disk on handle 1. */
static struct rafkudin *make_core(void)
{
    uint8_t record[RAFKUDIN_DESCRIPTOR_SIZE] = {[0] = 7, [9] = 0x10, [25] = 1};
    struct rafkudin *core = NULL;
    uint64_t handle = 0;

    if (RafkudinMake(record, sizeof record, sizeof record, 1, NULL, 0, &core) != RAFKUDIN_SUCCESS)
        abort();
    HOLDS(RafkudinInstallProtocolInterface(core, &handle, &disk, 0, 0) == RAFKUDIN_SUCCESS);
    return core;
}

#define REFUSED(call) HOLDS((call) == RAFKUDIN_INVALID_PARAMETER)

/* What needs no core, or has none. */
static void try_no_core(void)
{
    uint8_t record[RAFKUDIN_DESCRIPTOR_SIZE] = {[0] = 7, [25] = 1};
    const struct rafkudin_call call = {.service = RAFKUDIN_CALL_EXIT_BOOT_SERVICES};
    struct rafkudin_driver driver;
    struct rafkudin_descriptor entry;
    struct rafkudin *core = NULL;
    uint64_t number = 0;
    uint8_t byte = 0;

    memset(&driver, 0, sizeof driver);
    REFUSED(RafkudinMake(record, 48, 48, 1, &driver, 1, NULL));
    REFUSED(RafkudinMake(NULL, 48, 48, 1, &driver, 1, &core));
    REFUSED(RafkudinMake(record, 48, 48, 1, NULL, 1, &core));
    HOLDS(core == NULL);
    HOLDS(RafkudinMake(NULL, 0, 48, 1, NULL, 0, &core) == RAFKUDIN_SUCCESS && core != NULL);
    HOLDS(RafkudinDescriptors(core) == 0);
    RafkudinFree(core);
    RafkudinFree(NULL);
    REFUSED(RafkudinPlace(NULL, 48, 48, 1, 4, 1, UINT64_MAX, &number));
    REFUSED(RafkudinPlace(record, 48, 48, 1, 4, 1, UINT64_MAX, NULL));
    HOLDS(RafkudinPlace(NULL, 0, 48, 1, 4, 1, UINT64_MAX, &number) == RAFKUDIN_OUT_OF_RESOURCES);
    REFUSED(RafkudinCheck(NULL, 1, &number));
    REFUSED(RafkudinCheck(&byte, 1, NULL));
    REFUSED(RafkudinCheck(NULL, 0, &number));
    HOLDS(number == 1);
    REFUSED(RafkudinCertificate(NULL, &byte, 1, &number));
    REFUSED(RafkudinReplyLine(NULL, 1, &byte, 1, &number));
    REFUSED(RafkudinTraceLine(NULL, &call, &byte, 1, &number));
    REFUSED(RafkudinDescriptor(NULL, 0, &entry));
    HOLDS(RafkudinEvents(NULL, &number, 1) == 0);
    HOLDS(RafkudinDescriptors(NULL) == 0 && RafkudinRuns(NULL) == 0 && RafkudinCallsLeft(NULL) == 0);
    RafkudinCertify(NULL, true);
    RafkudinRecord(NULL, true);
}

/* Each null pointer of the questions. */
static void try_questions(struct rafkudin *core)
{
    struct rafkudin_interface interface;
    struct rafkudin_block block;
    struct rafkudin_item item;
    struct rafkudin_open open;
    struct rafkudin_run run;
    uint64_t number = 0;

    REFUSED(RafkudinBlockFrom(NULL, 0, &block));
    REFUSED(RafkudinBlockFrom(core, 0, NULL));
    REFUSED(RafkudinRun(NULL, 0, &run));
    REFUSED(RafkudinRun(core, 0, NULL));
    REFUSED(RafkudinHandle(NULL, 0, &number));
    REFUSED(RafkudinHandle(core, 0, NULL));
    REFUSED(RafkudinHolder(NULL, &disk, 0, &number));
    REFUSED(RafkudinHolder(core, NULL, 0, &number));
    REFUSED(RafkudinHolder(core, &disk, 0, NULL));
    REFUSED(RafkudinHandlesInto(NULL, &number, 1, &number));
    REFUSED(RafkudinHandlesInto(core, NULL, 1, &number));
    REFUSED(RafkudinHandlesInto(core, &number, 1, NULL));
    REFUSED(RafkudinHoldersInto(NULL, &disk, &number, 1, &number));
    REFUSED(RafkudinHoldersInto(core, NULL, &number, 1, &number));
    REFUSED(RafkudinHoldersInto(core, &disk, NULL, 1, &number));
    REFUSED(RafkudinHoldersInto(core, &disk, &number, 1, NULL));
    REFUSED(RafkudinInterface(NULL, 1, 0, &interface));
    REFUSED(RafkudinInterface(core, 1, 0, NULL));
    REFUSED(RafkudinOpenItem(NULL, 1, &disk, 0, &item));
    REFUSED(RafkudinOpenItem(core, 1, NULL, 0, &item));
    REFUSED(RafkudinOpenItem(core, 1, &disk, 0, NULL));
    REFUSED(RafkudinAgentItem(NULL, 1, 0, &open));
    REFUSED(RafkudinAgentItem(core, 1, 0, NULL));
    REFUSED(RafkudinOpenProtocolInformationInto(NULL, 1, &disk, &item, 1, &number));
    REFUSED(RafkudinOpenProtocolInformationInto(core, 1, NULL, &item, 1, &number));
    REFUSED(RafkudinOpenProtocolInformationInto(core, 1, &disk, NULL, 1, &number));
    REFUSED(RafkudinOpenProtocolInformationInto(core, 1, &disk, &item, 1, NULL));
    HOLDS(RafkudinOpenProtocolInformationInto(core, 1, &disk, NULL, 0, &number) ==
          RAFKUDIN_SUCCESS);
}

/* Each null pointer of a trace line, and of the call that it asks for. */
static void try_trace_line(struct rafkudin *core)
{
    struct rafkudin_call call = {.service = RAFKUDIN_CALL_POOL_WRITE};
    uint8_t text[12];
    uint64_t length = 0;

    REFUSED(RafkudinTraceLine(core, NULL, text, 12, &length));
    REFUSED(RafkudinTraceLine(core, &call, NULL, 12, &length));
    REFUSED(RafkudinTraceLine(core, &call, text, 12, NULL));
    HOLDS(RafkudinTraceLine(core, &call, NULL, 0, &length) == RAFKUDIN_BUFFER_TOO_SMALL);
    HOLDS(RafkudinTraceLine(core, &call, text, 12, &length) == RAFKUDIN_SUCCESS);
    HOLDS(length == 12 && memcmp(text, "write 0x0 -\n", 12) == 0);
    call.byte_count = 1;
    REFUSED(RafkudinTraceLine(core, &call, text, 12, &length));
    call.byte_count = 0;
    call.interface_count = 1;
    REFUSED(RafkudinTraceLine(core, &call, text, 12, &length));
    call.interface_count = 0;
    call.driver_count = 1;
    REFUSED(RafkudinTraceLine(core, &call, text, 12, &length));
}

/* Each null pointer of the replies that the caller passes. */
static void try_reply_lines(struct rafkudin *core)
{
    struct rafkudin_map_reply map = {.number = 1, .status = RAFKUDIN_UNSUPPORTED};
    struct rafkudin_read_reply read = {.number = 1, .status = RAFKUDIN_SUCCESS};
    uint8_t text[22];
    uint64_t length = 0;

    REFUSED(RafkudinMapReplyLine(NULL, &map, text, 22, &length));
    REFUSED(RafkudinMapReplyLine(core, NULL, text, 22, &length));
    REFUSED(RafkudinMapReplyLine(core, &map, NULL, 22, &length));
    REFUSED(RafkudinMapReplyLine(core, &map, text, 22, NULL));
    HOLDS(RafkudinMapReplyLine(core, &map, NULL, 0, &length) == RAFKUDIN_BUFFER_TOO_SMALL);
    HOLDS(RafkudinMapReplyLine(core, &map, text, 22, &length) == RAFKUDIN_SUCCESS);
    HOLDS(length == 18 && memcmp(text, "1 map UNSUPPORTED\n", 18) == 0);
    map.map_size = 1;
    REFUSED(RafkudinMapReplyLine(core, &map, text, 22, &length));
    REFUSED(RafkudinReadReplyLine(NULL, &read, text, 22, &length));
    REFUSED(RafkudinReadReplyLine(core, NULL, text, 22, &length));
    REFUSED(RafkudinReadReplyLine(core, &read, NULL, 22, &length));
    REFUSED(RafkudinReadReplyLine(core, &read, text, 22, NULL));
    HOLDS(RafkudinReadReplyLine(core, &read, NULL, 0, &length) == RAFKUDIN_BUFFER_TOO_SMALL);
    HOLDS(RafkudinReadReplyLine(core, &read, text, 22, &length) == RAFKUDIN_SUCCESS);
    HOLDS(length == 22 && memcmp(text, "1 read SUCCESS bytes=\n", 22) == 0);
    read.count = 1;
    REFUSED(RafkudinReadReplyLine(core, &read, text, 22, &length));
    read = (struct rafkudin_read_reply){.number = 1, .status = RAFKUDIN_ABORTED};
    REFUSED(RafkudinReadReplyLine(core, &read, text, 22, &length));
}

/* Each service with no core. */
static void try_null_core(void)
{
    uint64_t one = 0, two = 0, three = 0;
    struct rafkudin_interface interface = {disk, 0};
    struct rafkudin_guid guid = disk;
    uint32_t version = 0;
    uint8_t byte = 0;

    REFUSED(RafkudinAllocatePages(NULL, 0, 4, 1, &one));
    REFUSED(RafkudinFreePages(NULL, 0, 1));
    REFUSED(RafkudinGetMemoryMap(NULL, &one, NULL, NULL, NULL, NULL));
    REFUSED(RafkudinGetMemoryMapInto(NULL, &byte, 1, &one, &two, &three, &version));
    REFUSED(RafkudinAllocatePool(NULL, 4, 1, &one));
    REFUSED(RafkudinFreePool(NULL, 8));
    REFUSED(RafkudinPoolRead(NULL, 8, &byte, 1));
    REFUSED(RafkudinPoolWrite(NULL, 8, &byte, 1));
    REFUSED(RafkudinInstallProtocolInterface(NULL, &one, &disk, 0, 0));
    REFUSED(RafkudinInstallMultipleProtocolInterfaces(NULL, &one, &interface, 1));
    REFUSED(RafkudinUninstallMultipleProtocolInterfaces(NULL, 1, &interface, 1));
    REFUSED(RafkudinUninstallProtocolInterface(NULL, 1, &disk, 0));
    REFUSED(RafkudinReinstallProtocolInterface(NULL, 1, &disk, 0, 0));
    REFUSED(RafkudinRegisterProtocolNotify(NULL, &disk, 0, &one));
    REFUSED(RafkudinLocateHandle(NULL, 0, NULL, 0, &one, NULL));
    REFUSED(RafkudinLocateHandleInto(NULL, 0, &disk, 0, &one, &two, 1));
    REFUSED(RafkudinLocateHandleBuffer(NULL, 0, &disk, 0, &one, &two));
    REFUSED(RafkudinLocateProtocol(NULL, &disk, 0, &one));
    REFUSED(RafkudinProtocolsPerHandle(NULL, 1, &guid, 1, &one));
    REFUSED(RafkudinOpenProtocol(NULL, 1, &disk, &one, 0, 0, 1));
    REFUSED(RafkudinCloseProtocol(NULL, 1, &disk, 0, 0));
    REFUSED(RafkudinOpenProtocolInformation(NULL, 1, &disk, &one, &two));
    REFUSED(RafkudinHandleProtocol(NULL, 1, &disk, &one));
    REFUSED(RafkudinConnectController(NULL, 1, NULL, 0, false));
    REFUSED(RafkudinDisconnectController(NULL, 1, 0, 0));
    REFUSED(RafkudinLocateDevicePath(NULL, &disk, &one, &two));
    REFUSED(RafkudinLocatePath(NULL, &disk, &byte, 1, &one, &two));
    REFUSED(RafkudinInstallPath(NULL, &one, &byte, 1, &two));
    REFUSED(RafkudinExitBootServices(NULL, 1, 1));
}

/* Drivers that are code: these are no services. */
static void try_turns(struct rafkudin *core)
{
    struct rafkudin_turns turns = {0, 0, 1, false};
    struct rafkudin_binding driver = {1, 2, 3};
    uint64_t named = 1, left = RafkudinCallsLeft(core);

    REFUSED(RafkudinConnectBegin(NULL, 1, &named, 1, &driver, 1, &turns));
    REFUSED(RafkudinConnectBegin(core, 1, NULL, 1, &driver, 1, &turns));
    REFUSED(RafkudinConnectBegin(core, 1, &named, 1, NULL, 1, &turns));
    REFUSED(RafkudinConnectBegin(core, 1, &named, 1, &driver, 1, NULL));
    REFUSED(RafkudinConnectNext(NULL, &driver, 1, &driver));
    REFUSED(RafkudinConnectNext(&turns, NULL, 1, &driver));
    REFUSED(RafkudinConnectNext(&turns, &driver, 1, NULL));
    RafkudinConnectRecord(NULL, &driver, 1, true);
    RafkudinConnectRecord(&turns, NULL, 0, true);
    HOLDS(turns.next == 0 && turns.end == 1 && driver.handle == 1);
    HOLDS(RafkudinConnectNext(&turns, NULL, 0, &driver) == RAFKUDIN_NOT_FOUND);
    HOLDS(RafkudinConnectBegin(core, 1, NULL, 0, NULL, 0, &turns) == RAFKUDIN_SUCCESS);
    HOLDS(turns.end == 0 && RafkudinCallsLeft(core) == left);
}

/* The stops of drivers that are code: these are no services either. */
static void try_stops(struct rafkudin *core)
{
    struct rafkudin_stop stop = {1, 2};
    uint64_t child = 3, count = 4, left = RafkudinCallsLeft(core);

    REFUSED(RafkudinStopsOnInterface(NULL, 1, &disk, &stop, 1, &count));
    REFUSED(RafkudinStopsOnInterface(core, 1, NULL, &stop, 1, &count));
    REFUSED(RafkudinStopsOnInterface(core, 1, &disk, NULL, 1, &count));
    REFUSED(RafkudinStopsOnInterface(core, 1, &disk, &stop, 1, NULL));
    REFUSED(RafkudinStopsOnController(NULL, 1, 0, &stop, 1, &count));
    REFUSED(RafkudinStopsOnController(core, 1, 0, NULL, 1, &count));
    REFUSED(RafkudinStopsOnController(core, 1, 0, &stop, 1, NULL));
    REFUSED(RafkudinChildren(NULL, 1, 1, &child, 1, &count));
    REFUSED(RafkudinChildren(core, 1, 1, NULL, 1, &count));
    REFUSED(RafkudinChildren(core, 1, 1, &child, 1, NULL));
    HOLDS(count == 4);
    HOLDS(RafkudinStopsOnInterface(core, 1, &disk, NULL, 0, &count) == RAFKUDIN_SUCCESS &&
          count == 0);
    HOLDS(RafkudinStopsOnController(core, 99, 0, NULL, 0, &count) == RAFKUDIN_SUCCESS &&
          count == 0);
    HOLDS(RafkudinChildren(core, 1, 1, NULL, 0, &count) == RAFKUDIN_SUCCESS && count == 0);
    HOLDS(stop.controller == 1 && stop.agent == 2 && child == 3);
    HOLDS(RafkudinCallsLeft(core) == left);
}

/* Each other pointer of each service, on a core. */
static void try_null_parameters(struct rafkudin *core)
{
    uint64_t one = 0, two = 0, three = 0, left = RafkudinCallsLeft(core);
    uint32_t version = 0;
    uint8_t byte = 0;

    REFUSED(RafkudinCertificate(core, NULL, 1, &one));
    REFUSED(RafkudinCertificate(core, &byte, 1, NULL));
    REFUSED(RafkudinReplyLine(core, 1, NULL, 1, &one));
    REFUSED(RafkudinReplyLine(core, 1, &byte, 1, NULL));
    REFUSED(RafkudinDescriptor(core, 0, NULL));
    REFUSED(RafkudinAllocatePages(core, 0, 4, 1, NULL));
    REFUSED(RafkudinGetMemoryMap(core, NULL, &byte, NULL, NULL, NULL));
    REFUSED(RafkudinGetMemoryMapInto(core, NULL, 1, &one, &two, &three, &version));
    REFUSED(RafkudinGetMemoryMapInto(core, &byte, 1, NULL, &two, &three, &version));
    REFUSED(RafkudinGetMemoryMapInto(core, &byte, 1, &one, NULL, &three, &version));
    REFUSED(RafkudinGetMemoryMapInto(core, &byte, 1, &one, &two, NULL, &version));
    REFUSED(RafkudinGetMemoryMapInto(core, &byte, 1, &one, &two, &three, NULL));
    REFUSED(RafkudinAllocatePool(core, 4, 1, NULL));
    REFUSED(RafkudinPoolRead(core, 8, NULL, 1));
    REFUSED(RafkudinPoolWrite(core, 8, NULL, 1));
    REFUSED(RafkudinInstallProtocolInterface(core, NULL, &disk, 0, 0));
    REFUSED(RafkudinInstallProtocolInterface(core, &one, NULL, 0, 0));
    REFUSED(RafkudinInstallMultipleProtocolInterfaces(core, NULL, NULL, 0));
    REFUSED(RafkudinInstallMultipleProtocolInterfaces(core, &one, NULL, 1));
    REFUSED(RafkudinUninstallMultipleProtocolInterfaces(core, 1, NULL, 1));
    REFUSED(RafkudinUninstallProtocolInterface(core, 1, NULL, 0));
    REFUSED(RafkudinReinstallProtocolInterface(core, 1, NULL, 0, 0));
    REFUSED(RafkudinRegisterProtocolNotify(core, NULL, 0, &one));
    REFUSED(RafkudinRegisterProtocolNotify(core, &disk, 0, NULL));
    REFUSED(RafkudinLocateHandleInto(core, 2, NULL, 0, &one, &two, 1));
    REFUSED(RafkudinLocateHandleInto(core, 0, &disk, 0, NULL, &two, 1));
    REFUSED(RafkudinLocateHandleInto(core, 0, &disk, 0, &one, NULL, 1));
    REFUSED(RafkudinLocateHandleBuffer(core, 2, NULL, 0, &one, &two));
    REFUSED(RafkudinLocateHandleBuffer(core, 0, &disk, 0, NULL, &two));
    REFUSED(RafkudinLocateHandleBuffer(core, 0, &disk, 0, &one, NULL));
    REFUSED(RafkudinLocateProtocol(core, NULL, 0, &one));
    REFUSED(RafkudinLocateProtocol(core, &disk, 0, NULL));
    REFUSED(RafkudinProtocolsPerHandle(core, 1, NULL, 1, &one));
    REFUSED(RafkudinProtocolsPerHandle(core, 1, NULL, 0, NULL));
    REFUSED(RafkudinOpenProtocol(core, 1, NULL, &one, 0, 0, 2));
    REFUSED(RafkudinOpenProtocol(core, 1, &disk, NULL, 0, 0, 2));
    REFUSED(RafkudinCloseProtocol(core, 1, NULL, 0, 0));
    REFUSED(RafkudinOpenProtocolInformation(core, 1, NULL, &one, &two));
    REFUSED(RafkudinOpenProtocolInformation(core, 1, &disk, NULL, &two));
    REFUSED(RafkudinOpenProtocolInformation(core, 1, &disk, &one, NULL));
    REFUSED(RafkudinHandleProtocol(core, 1, NULL, &one));
    REFUSED(RafkudinHandleProtocol(core, 1, &disk, NULL));
    REFUSED(RafkudinConnectDrivers(core, 1, NULL, 1, false));
    REFUSED(RafkudinLocateDevicePath(core, NULL, &one, &two));
    REFUSED(RafkudinLocateDevicePath(core, &disk, NULL, &two));
    REFUSED(RafkudinLocateDevicePath(core, &disk, &one, NULL));
    REFUSED(RafkudinLocatePath(core, NULL, &byte, 1, &one, &two));
    REFUSED(RafkudinLocatePath(core, &disk, NULL, 1, &one, &two));
    REFUSED(RafkudinLocatePath(core, &disk, &byte, 1, NULL, &two));
    REFUSED(RafkudinLocatePath(core, &disk, &byte, 1, &one, NULL));
    REFUSED(RafkudinInstallPath(core, NULL, &byte, 1, &two));
    REFUSED(RafkudinInstallPath(core, &one, NULL, 1, &two));
    REFUSED(RafkudinInstallPath(core, &one, &byte, 1, NULL));
    HOLDS(RafkudinCallsLeft(core) == left && one == 0 && two == 0 && three == 0);
}

/* Null pointers that may be null: these calls are served. */
static void try_allowed(struct rafkudin *core)
{
    uint64_t one = 0, two = 0, left = RafkudinCallsLeft(core);

    HOLDS(RafkudinLocateHandleInto(core, 0, NULL, 0, &one, NULL, 0) == RAFKUDIN_BUFFER_TOO_SMALL);
    HOLDS(one == 8);
    HOLDS(RafkudinLocateHandleBuffer(core, 0, NULL, 0, &one, &two) == RAFKUDIN_SUCCESS);
    HOLDS(RafkudinPoolRead(core, two + 8, NULL, 0) == RAFKUDIN_SUCCESS);
    HOLDS(RafkudinPoolWrite(core, two + 8, NULL, 0) == RAFKUDIN_SUCCESS);
    HOLDS(RafkudinOpenProtocol(core, 1, &disk, NULL, 0, 0, RAFKUDIN_TEST_PROTOCOL) ==
          RAFKUDIN_SUCCESS);
    HOLDS(RafkudinConnectController(core, 1, NULL, 0, false) == RAFKUDIN_NOT_FOUND);
    HOLDS(RafkudinCallsLeft(core) == left - 6);
}

int main(void)
{
    struct rafkudin *core = make_core();

    try_no_core();
    try_null_core();
    try_null_parameters(core);
    try_questions(core);
    try_trace_line(core);
    try_reply_lines(core);
    try_allowed(core);
    try_turns(core);
    try_stops(core);
    RafkudinFree(core);
    return points_end("misuse");
}
