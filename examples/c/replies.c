/* Calls, made, and their replies as text. Each function makes the call of a verb and appends the
 * fields of its reply. */
#include "replies.h"

#include "fault.h"
#include "guids.h"
#include "machine.h"

#include <inttypes.h>
#include <stdlib.h>
#include <string.h>

static const char *status_name(uint64_t status)
{
    switch (status) {
    case RAFKUDIN_SUCCESS:
        return "SUCCESS";
    case RAFKUDIN_INVALID_PARAMETER:
        return "INVALID_PARAMETER";
    case RAFKUDIN_UNSUPPORTED:
        return "UNSUPPORTED";
    case RAFKUDIN_BUFFER_TOO_SMALL:
        return "BUFFER_TOO_SMALL";
    case RAFKUDIN_DEVICE_ERROR:
        return "DEVICE_ERROR";
    case RAFKUDIN_OUT_OF_RESOURCES:
        return "OUT_OF_RESOURCES";
    case RAFKUDIN_NOT_FOUND:
        return "NOT_FOUND";
    case RAFKUDIN_ACCESS_DENIED:
        return "ACCESS_DENIED";
    case RAFKUDIN_ALREADY_STARTED:
        return "ALREADY_STARTED";
    case RAFKUDIN_ABORTED:
        fail("trace: no calls left");
    default:
        fail("status 0x%" PRIx64, status);
    }
}

/* Appends how a call ended, and answers whether it succeeded. */
static bool print_status(struct run *run, uint64_t status)
{
    text_print(&run->text, " %s", status_name(status));
    return status == RAFKUDIN_SUCCESS;
}

static void print_address(struct run *run, uint64_t status, const char *name, uint64_t value)
{
    if (print_status(run, status))
        text_print(&run->text, " %s=0x%" PRIx64, name, value);
}

static void print_descriptor(struct run *run, const struct rafkudin_descriptor *entry)
{
    text_print(&run->text, "\n  %" PRIu32 " 0x%" PRIx64 " %" PRIu64 " 0x%" PRIx64, entry->type,
               entry->physical_start, entry->number_of_pages, entry->attribute);
}

/* Appends numbers with commas between them. */
static void print_numbers(struct run *run, const uint64_t *numbers, size_t count)
{
    for (size_t at = 0; at < count; at++)
        text_print(&run->text, "%s%" PRIu64, at == 0 ? "" : ",", numbers[at]);
}

/* Appends the events that the call signals. */
static void print_events(struct run *run)
{
    uint64_t none = 0;
    size_t count = RafkudinEvents(run->core, &none, 0);
    uint64_t *events = grow(NULL, count * sizeof *events);

    if (RafkudinEvents(run->core, events, count) != count)
        fail("RafkudinEvents returns another number of events");
    text_print(&run->text, " events=%s", count == 0 ? "-" : "");
    print_numbers(run, events, count);
    free(events);
}

static void reply_pages(struct run *run, const struct call *call)
{
    uint64_t memory = call->numbers[3];
    uint64_t status = RafkudinAllocatePages(run->core, (uint32_t)call->numbers[0],
                                            (uint32_t)call->numbers[1], call->numbers[2], &memory);

    print_address(run, status, "address", memory);
}

static void reply_free_pages(struct run *run, const struct call *call)
{
    print_status(run, RafkudinFreePages(run->core, call->numbers[0], call->numbers[1]));
}

/* What the library prints of a reply that the caller passes, which ends with a line feed, must be
 * what is appended of the call. */
static void compare_printed(const struct run *run, uint64_t status, const uint8_t *text,
                            uint64_t length)
{
    size_t appended = run->text.length - run->start;

    if (status != RAFKUDIN_SUCCESS || length != appended + 1 || text[appended] != '\n' ||
        memcmp(text, run->text.bytes + run->start, appended) != 0)
        fail("the library prints another reply to the call of line %" PRIu64, run->number);
}

static void compare_map(const struct run *run, const struct rafkudin_map_reply *reply)
{
    size_t room = run->text.length - run->start + 1;
    uint8_t *text = grow(NULL, room);
    uint64_t length = 0;
    uint64_t status = RafkudinMapReplyLine(run->core, reply, text, room, &length);

    compare_printed(run, status, text, length);
    free(text);
}

static void compare_read(const struct run *run, const struct rafkudin_read_reply *reply)
{
    size_t room = run->text.length - run->start + 1;
    uint8_t *text = grow(NULL, room);
    uint64_t length = 0;
    uint64_t status = RafkudinReadReplyLine(run->core, reply, text, room, &length);

    compare_printed(run, status, text, length);
    free(text);
}

static void reply_map(struct run *run, const struct call *call)
{
    uint64_t size = call->numbers[0], key = 0, step = 0;
    uint32_t version = 0;
    uint8_t *map = grow(NULL, size);
    uint64_t status = RafkudinGetMemoryMap(run->core, &size, map, &key, &step, &version);

    if (print_status(run, status)) {
        text_print(&run->text,
                   " size=%" PRIu64 " key=%" PRIu64 " descriptor-size=%" PRIu64 " version=%" PRIu32,
                   size, key, step, version);
        for (uint64_t at = 0; at < size; at += step) {
            struct rafkudin_descriptor entry = descriptor_at(map + at);

            print_descriptor(run, &entry);
        }
    } else if (status == RAFKUDIN_BUFFER_TOO_SMALL) {
        text_print(&run->text, " size=%" PRIu64, size);
    }
    compare_map(run, &(struct rafkudin_map_reply){run->number, status, size, key, step, version,
                                                  map, status == RAFKUDIN_SUCCESS ? size : 0});
    free(map);
}

static void reply_exit(struct run *run, const struct call *call)
{
    print_status(run, RafkudinExitBootServices(run->core, 0, call->numbers[0]));
}

static void reply_pool(struct run *run, const struct call *call)
{
    uint64_t address = 0;
    uint64_t status =
        RafkudinAllocatePool(run->core, (uint32_t)call->numbers[0], call->numbers[1], &address);

    print_address(run, status, "address", address);
}

static void reply_free_pool(struct run *run, const struct call *call)
{
    print_status(run, RafkudinFreePool(run->core, call->numbers[0]));
}

static void reply_read(struct run *run, const struct call *call)
{
    size_t count = call->numbers[1];
    uint8_t *bytes = grow(NULL, count);
    uint64_t status = RafkudinPoolRead(run->core, call->numbers[0], bytes, count);

    if (print_status(run, status)) {
        text_print(&run->text, " bytes=");
        for (size_t at = 0; at < count; at++)
            text_print(&run->text, "%02x", bytes[at]);
    }
    compare_read(run, &(struct rafkudin_read_reply){run->number, status, bytes,
                                                    status == RAFKUDIN_SUCCESS ? count : 0});
    free(bytes);
}

static void reply_write(struct run *run, const struct call *call)
{
    print_status(run,
                 RafkudinPoolWrite(run->core, call->numbers[0], call->bytes, call->byte_count));
}

/* The fields of an installation. */
static void print_installed(struct run *run, uint64_t status, uint64_t handle)
{
    if (print_status(run, status)) {
        text_print(&run->text, " handle=%" PRIu64, handle);
        print_events(run);
    }
}

static void reply_install(struct run *run, const struct call *call)
{
    uint64_t handle = call->numbers[0];
    uint64_t status = RafkudinInstallProtocolInterface(
        run->core, &handle, &call->guid, (uint32_t)call->numbers[1], call->numbers[2]);

    print_installed(run, status, handle);
}

static void reply_install_many(struct run *run, const struct call *call)
{
    uint64_t handle = call->numbers[0];
    uint64_t status = RafkudinInstallMultipleProtocolInterfaces(run->core, &handle,
                                                                call->interfaces, call->count);

    print_installed(run, status, handle);
}

static void reply_uninstall(struct run *run, const struct call *call)
{
    print_status(run, RafkudinUninstallProtocolInterface(run->core, call->numbers[0], &call->guid,
                                                         call->numbers[1]));
}

static void reply_reinstall(struct run *run, const struct call *call)
{
    uint64_t status = RafkudinReinstallProtocolInterface(run->core, call->numbers[0], &call->guid,
                                                         call->numbers[1], call->numbers[2]);

    if (print_status(run, status))
        print_events(run);
}

static void reply_open(struct run *run, const struct call *call)
{
    uint64_t interface = 0;
    uint32_t attributes = (uint32_t)call->numbers[3];
    uint64_t status = RafkudinOpenProtocol(run->core, call->numbers[0], &call->guid, &interface,
                                           call->numbers[1], call->numbers[2], attributes);

    if (attributes == RAFKUDIN_TEST_PROTOCOL)
        print_status(run, status);
    else
        print_address(run, status, "interface", interface);
}

static void reply_close(struct run *run, const struct call *call)
{
    print_status(run, RafkudinCloseProtocol(run->core, call->numbers[0], &call->guid,
                                            call->numbers[1], call->numbers[2]));
}

/* The fields of a list in a pool block. */
static void print_block(struct run *run, uint64_t status, uint64_t count, uint64_t address)
{
    if (print_status(run, status))
        text_print(&run->text, " count=%" PRIu64 " address=0x%" PRIx64, count, address);
}

static void reply_information(struct run *run, const struct call *call)
{
    uint64_t address = 0, count = 0;
    uint64_t status =
        RafkudinOpenProtocolInformation(run->core, call->numbers[0], &call->guid, &address, &count);

    print_block(run, status, count, address);
}

static void reply_handle_protocol(struct run *run, const struct call *call)
{
    uint64_t interface = 0;
    uint64_t status = RafkudinHandleProtocol(run->core, call->numbers[0], &call->guid, &interface);

    print_address(run, status, "interface", interface);
}

static void reply_notify(struct run *run, const struct call *call)
{
    uint64_t registration = 0;

    if (print_status(run, RafkudinRegisterProtocolNotify(run->core, &call->guid, call->numbers[0],
                                                         &registration)))
        text_print(&run->text, " registration=%" PRIu64, registration);
}

static void reply_locate(struct run *run, const struct call *call)
{
    uint64_t size = call->numbers[2];
    uint64_t room = size / sizeof(uint64_t) < RAFKUDIN_MAX_HANDLES ? size / sizeof(uint64_t)
                                                                   : RAFKUDIN_MAX_HANDLES;
    uint64_t *handles = grow(NULL, room * sizeof *handles);
    uint64_t status = RafkudinLocateHandle(run->core, (uint32_t)call->numbers[0], &call->guid,
                                           call->numbers[1], &size, handles);

    if (print_status(run, status)) {
        text_print(&run->text, " size=%" PRIu64 " handles=", size);
        print_numbers(run, handles, size / sizeof *handles);
    } else if (status == RAFKUDIN_BUFFER_TOO_SMALL) {
        text_print(&run->text, " size=%" PRIu64, size);
    }
    free(handles);
}

static void reply_locate_buffer(struct run *run, const struct call *call)
{
    uint64_t count = 0, address = 0;
    uint64_t status = RafkudinLocateHandleBuffer(run->core, (uint32_t)call->numbers[0], &call->guid,
                                                 call->numbers[1], &count, &address);

    print_block(run, status, count, address);
}

static void reply_locate_protocol(struct run *run, const struct call *call)
{
    uint64_t interface = 0;
    uint64_t status = RafkudinLocateProtocol(run->core, &call->guid, call->numbers[0], &interface);

    print_address(run, status, "interface", interface);
}

static void reply_protocols(struct run *run, const struct call *call)
{
    struct rafkudin_guid *guids = NULL;
    uint64_t count = 0;
    uint64_t status = RafkudinProtocolsPerHandle(run->core, call->numbers[0], NULL, 0, &count);

    if (status == RAFKUDIN_BUFFER_TOO_SMALL) {
        guids = grow(NULL, count * sizeof *guids);
        status = RafkudinProtocolsPerHandle(run->core, call->numbers[0], guids, count, &count);
    }
    if (!print_status(run, status))
        return;
    text_print(&run->text, " guids=");
    for (uint64_t at = 0; at < count; at++) {
        text_print(&run->text, "%s", at == 0 ? "" : ",");
        guid_print(&run->text, &guids[at]);
    }
    free(guids);
}

static void reply_connect(struct run *run, const struct call *call)
{
    uint64_t status = RafkudinConnectDrivers(run->core, call->numbers[0], call->drivers,
                                             call->count, call->numbers[1] != 0);

    if (print_status(run, status))
        print_events(run);
}

static void reply_disconnect(struct run *run, const struct call *call)
{
    print_status(run, RafkudinDisconnectDrivers(run->core, call->numbers[0], call->numbers[1]));
}

static void reply_path(struct run *run, const struct call *call)
{
    uint64_t address = call->numbers[0], handle = 0;

    if (print_status(run, RafkudinLocateDevicePath(run->core, &call->guid, &address, &handle)))
        text_print(&run->text, " handle=%" PRIu64 " address=0x%" PRIx64, handle, address);
}

static void reply_list(struct run *run, const struct call *call)
{
    size_t count = RafkudinDescriptors(run->core);

    (void)call;
    text_print(&run->text, " descriptors=%zu", count);
    for (size_t index = 0; index < count; index++) {
        struct rafkudin_descriptor entry;

        if (RafkudinDescriptor(run->core, index, &entry) != RAFKUDIN_SUCCESS)
            fail("RafkudinDescriptors returns more than there are");
        print_descriptor(run, &entry);
    }
}

static void (*const replies[VERBS])(struct run *run, const struct call *call) = {
    [PAGES] = reply_pages,
    [FREE_PAGES] = reply_free_pages,
    [MAP] = reply_map,
    [EXIT] = reply_exit,
    [POOL] = reply_pool,
    [FREE_POOL] = reply_free_pool,
    [READ] = reply_read,
    [WRITE] = reply_write,
    [INSTALL] = reply_install,
    [INSTALL_MANY] = reply_install_many,
    [UNINSTALL] = reply_uninstall,
    [REINSTALL] = reply_reinstall,
    [OPEN] = reply_open,
    [CLOSE] = reply_close,
    [INFORMATION] = reply_information,
    [HANDLE_PROTOCOL] = reply_handle_protocol,
    [NOTIFY] = reply_notify,
    [LOCATE] = reply_locate,
    [LOCATE_BUFFER] = reply_locate_buffer,
    [LOCATE_PROTOCOL] = reply_locate_protocol,
    [PROTOCOLS] = reply_protocols,
    [CONNECT] = reply_connect,
    [DISCONNECT] = reply_disconnect,
    [PATH] = reply_path,
    [LIST] = reply_list,
};

/* Appends the certificate of the call, if it has one. */
static void print_certificate(struct run *run)
{
    uint8_t none = 0;
    uint64_t length = 0;
    uint64_t status = RafkudinCertificate(run->core, &none, 0, &length);
    uint8_t *block;

    if (status == RAFKUDIN_NOT_FOUND)
        return;
    if (status == RAFKUDIN_BUFFER_TOO_SMALL) {
        block = grow(NULL, length);
        status = RafkudinCertificate(run->core, block, length, &length);
        if (status == RAFKUDIN_SUCCESS)
            text_append(&run->text, block, length);
        free(block);
    }
    if (status != RAFKUDIN_SUCCESS)
        fail("a certificate: status 0x%" PRIx64, status);
}

/* Whether a line's call leaves a reply: one that fills a buffer of the caller's leaves none, and a
 * listing is no call. */
static bool leaves_reply(enum verb verb)
{
    return verb != MAP && verb != READ && verb != LIST;
}

/* What the library prints of the call by itself must be what is appended of it here, from `start`
 * on; behind it only a certificate that is hidden here. */
static void compare_reply_line(const struct run *run, uint64_t number, size_t start)
{
    size_t room = run->text.length - start;
    uint8_t *line = grow(NULL, room);
    uint64_t length = 0;
    uint64_t status = RafkudinReplyLine(run->core, number, line, room - 1, &length);

    if (status == RAFKUDIN_BUFFER_TOO_SMALL &&
        (length == room || (length > room && run->hides_certificates))) {
        line = grow(line, length);
        status = RafkudinReplyLine(run->core, number, line, length, &length);
    }
    if (status != RAFKUDIN_SUCCESS || length < room ||
        (length > room && !run->hides_certificates) ||
        memcmp(line, run->text.bytes + start, room) != 0)
        fail("the library prints another reply to the call of line %" PRIu64, number);
    free(line);
}

/* Of a call that leaves no reply the library prints nothing. */
static void compare_no_reply(const struct run *run, uint64_t number)
{
    uint64_t length = 0;
    uint8_t byte = 0;

    if (RafkudinReplyLine(run->core, number, &byte, 1, &length) != RAFKUDIN_NOT_FOUND)
        fail("the library prints a reply that the call of line %" PRIu64 " did not leave", number);
}

void run_call(struct run *run, const struct call *call, uint64_t number)
{
    size_t start = run->text.length;

    run->number = number;
    run->start = run->text.length;
    text_print(&run->text, "%" PRIu64 " %s", number, verb_name(call->verb));
    replies[call->verb](run, call);
    text_print(&run->text, "\n");
    if (run->certify && call->verb != LIST)
        print_certificate(run);
    if (leaves_reply(call->verb))
        compare_reply_line(run, number, start);
    else if (call->verb != LIST)
        compare_no_reply(run, number);
}
