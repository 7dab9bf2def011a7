/* The calls of examples/refused-calls.txt over memory that is refused:
 *
 *     refused_calls FILE
 *
 * Each allocation of a call is refused in turn, alone and with all after it. The call then is out of
 * memory, the questions at the end of the file are answered as without it, and made again it is
 * served as ever; or else it is served at once, as where std asks again for less. A call that is
 * refused none is served. All this on cores that make certificates, too. The heap is that of
 * refusing_heap.h, instead of the library's. Each point that does not hold is printed on standard
 * error, and then the status is 1. */
#include "calls.h"
#include "fault.h"
#include "points.h"
#include "refusing_heap.h"
#include "replies.h"
#include "small_core.h"

#include <limits.h>
#include <stdio.h>
#include <stdlib.h>
#include <string.h>

/* ---- The file ---- */

#define MAX_LINES 40

/* Calls before one, the call, and the first line of its reply; or the questions. */
struct stretch {
    bool takes_memory, has_driver;
    struct line *lines[MAX_LINES];
    size_t count;
    char reply[128];
};

static struct line *copy_of(const struct line *line)
{
    struct line *copy = grow(NULL, sizeof *copy);

    *copy = *line;
    return copy;
}

static bool begins(const struct line *line, const char *text)
{
    return line->length >= strlen(text) && memcmp(line->bytes, text, strlen(text)) == 0;
}

/* Reads the lines up to an empty one or the end of the file, and returns whether there are some. A
 * stretch of comments has none. */
static bool stretch_read(struct stretch *stretch, FILE *file)
{
    static struct line line;
    bool is_there = false;

    memset(stretch, 0, sizeof *stretch);
    while (line_read(&line, file) && line.length > 0) {
        is_there = true;
        if (begins(&line, "refused") || begins(&line, "served")) {
            stretch->takes_memory = begins(&line, "refused");
            stretch->has_driver = begins(&line, "refused drivers");
        } else if (begins(&line, "= ")) {
            snprintf(stretch->reply, sizeof stretch->reply, "%.*s", (int)line.length - 2,
                     line.bytes + 2);
        } else if (!begins(&line, "#") && !begins(&line, "questions")) {
            if (stretch->count == MAX_LINES)
                fail("more lines than there is room for");
            stretch->lines[stretch->count++] = copy_of(&line);
        }
    }
    return is_there;
}

static void stretch_free(struct stretch *stretch)
{
    while (stretch->count > 0)
        free(stretch->lines[--stretch->count]);
}

/* ---- Calls ---- */

/* A core on the memory of examples/machine-a.json, with a driver that makes two children or none. */
static struct rafkudin *make_core(bool has_driver, bool certifies)
{
    static const uint64_t records[4][6] = {{7, 0, 0, 160, 0xf, 0},
                                           {7, 0x100000, 0, 768, 0xf, 0},
                                           {6, 0x400000, 0, 16, 0x800000000000000f, 0},
                                           {7, 0x410000, 0, 1008, 0xf, 0}};
    struct rafkudin_driver driver = driver_for(1, 0x11, 0x11);
    struct rafkudin *core = NULL;

    add_child(&driver, 0x22, 0x21);
    add_child(&driver, 0x22, 0x22);
    if (RafkudinMake((const uint8_t *)records, sizeof records, sizeof records[0], 1, &driver,
                     has_driver, &core) != RAFKUDIN_SUCCESS)
        fail("no core");
    RafkudinCertify(core, certifies);
    RafkudinRecord(core, true);
    return core;
}

/* Whether a call fills a buffer of the caller's and leaves all as it was. */
static bool only_asks(const struct call *call)
{
    return call->verb == MAP || call->verb == READ || call->verb == PROTOCOLS ||
           (call->verb == LOCATE && call->numbers[0] != RAFKUDIN_BY_REGISTER_NOTIFY);
}

/* Whether a call may make a certificate, for which a core that makes some keeps the map before. */
static bool may_be_certified(const struct call *call)
{
    return call->verb == POOL || call->verb == LOCATE_BUFFER || call->verb == INFORMATION ||
           (call->verb == PAGES && call->numbers[0] < RAFKUDIN_AT_ADDRESS);
}

/* Calls a service on pages or the pool. */
static uint64_t serve_memory(struct rafkudin *core, const struct call *call)
{
    static uint8_t bytes[1 << 16];
    uint64_t number = call->numbers[3], key, step;
    uint32_t version;

    switch (call->verb) {
    case PAGES:
        return RafkudinAllocatePages(core, (uint32_t)call->numbers[0], (uint32_t)call->numbers[1],
                                     call->numbers[2], &number);
    case FREE_PAGES:
        return RafkudinFreePages(core, call->numbers[0], call->numbers[1]);
    case MAP:
        number = call->numbers[0];
        return RafkudinGetMemoryMap(core, &number, bytes, &key, &step, &version);
    case EXIT:
        return RafkudinExitBootServices(core, 0, call->numbers[0]);
    case POOL:
        return RafkudinAllocatePool(core, (uint32_t)call->numbers[0], call->numbers[1], &number);
    case FREE_POOL:
        return RafkudinFreePool(core, call->numbers[0]);
    case READ:
        return RafkudinPoolRead(core, call->numbers[0], bytes, call->numbers[1]);
    default:
        return RafkudinPoolWrite(core, call->numbers[0], call->bytes, call->byte_count);
    }
}

/* Calls a service that looks for handles, or for what is on them. */
static uint64_t serve_search(struct rafkudin *core, const struct call *call)
{
    static uint64_t handles[512];
    static struct rafkudin_guid guids[16];
    const uint64_t *numbers = call->numbers;
    uint64_t first = numbers[0], second = numbers[2];

    switch (call->verb) {
    case HANDLE_PROTOCOL:
        return RafkudinHandleProtocol(core, first, &call->guid, &second);
    case LOCATE:
        return RafkudinLocateHandle(core, (uint32_t)first, &call->guid, numbers[1], &second,
                                    handles);
    case LOCATE_BUFFER:
        return RafkudinLocateHandleBuffer(core, (uint32_t)first, &call->guid, numbers[1], &first,
                                          &second);
    case LOCATE_PROTOCOL:
        return RafkudinLocateProtocol(core, &call->guid, first, &second);
    case PROTOCOLS:
        return RafkudinProtocolsPerHandle(core, first, guids, 16, &second);
    case INFORMATION:
        return RafkudinOpenProtocolInformation(core, first, &call->guid, &first, &second);
    default:
        return RafkudinLocateDevicePath(core, &call->guid, &first, &second);
    }
}

/* Calls a service that changes what is on handles. */
static uint64_t serve_change(struct rafkudin *core, const struct call *call)
{
    const uint64_t *numbers = call->numbers;
    uint64_t number = numbers[0];

    switch (call->verb) {
    case INSTALL:
        return RafkudinInstallProtocolInterface(core, &number, &call->guid, (uint32_t)numbers[1],
                                                numbers[2]);
    case INSTALL_MANY:
        return RafkudinInstallMultipleProtocolInterfaces(core, &number, call->interfaces,
                                                         call->count);
    case UNINSTALL:
        return RafkudinUninstallProtocolInterface(core, number, &call->guid, numbers[1]);
    case REINSTALL:
        return RafkudinReinstallProtocolInterface(core, number, &call->guid, numbers[1],
                                                  numbers[2]);
    case OPEN:
        return RafkudinOpenProtocol(core, numbers[0], &call->guid, &number, numbers[1], numbers[2],
                                    (uint32_t)numbers[3]);
    case CLOSE:
        return RafkudinCloseProtocol(core, number, &call->guid, numbers[1], numbers[2]);
    case NOTIFY:
        return RafkudinRegisterProtocolNotify(core, &call->guid, numbers[0], &number);
    case CONNECT:
        return RafkudinConnectDrivers(core, number, call->drivers, call->count, numbers[1] != 0);
    default:
        return RafkudinDisconnectDrivers(core, number, numbers[1]);
    }
}

static uint64_t serve(struct rafkudin *core, const struct call *call)
{
    switch (call->verb) {
    case PAGES:
    case FREE_PAGES:
    case MAP:
    case EXIT:
    case POOL:
    case FREE_POOL:
    case READ:
    case WRITE:
        return serve_memory(core, call);
    case HANDLE_PROTOCOL:
    case LOCATE:
    case LOCATE_BUFFER:
    case LOCATE_PROTOCOL:
    case PROTOCOLS:
    case INFORMATION:
    case PATH:
        return serve_search(core, call);
    case LIST:
    case VERBS:
        fail("no call");
    default:
        return serve_change(core, call);
    }
}

/* Makes the calls of some lines, and appends what is printed of them. */
static void make_lines(struct run *run, struct line *const *lines, size_t count)
{
    struct call call;

    for (size_t at = 0; at < count; at++)
        if (call_read(&call, lines[at], at + 1))
            run_call(run, &call, at + 1);
}

/* What the library prints of the last call; nothing of one that fills a buffer. */
static struct text printed(const struct rafkudin *core)
{
    static uint8_t bytes[4096];
    struct text text = {0};
    uint64_t length = 0;

    if (RafkudinReplyLine(core, 1, bytes, sizeof bytes, &length) == RAFKUDIN_SUCCESS)
        text_append(&text, bytes, length);
    return text;
}

/* ---- A call and what follows ---- */

/* What a call returned, whether it was served without the certificate for which memory was refused,
 * what is printed of it, and what the questions behind it are answered. */
struct returned {
    uint64_t status;
    bool lost_certificate;
    struct text reply, answers;
};

static void returned_free(struct returned *returned)
{
    text_free(&returned->reply);
    text_free(&returned->answers);
}

/* Makes a call to which the allocations from one up to another are refused, and then asks, or makes
 * it again. */
static struct returned make_refused(const struct stretch *stretch, const struct stretch *questions,
                                    bool certifies, unsigned long first, unsigned long last)
{
    struct run run = {.core = NULL, .certify = certifies};
    struct returned returned = {0};
    struct call call;
    uint64_t left, length = 0;

    refuse_none();
    run.core = make_core(stretch->has_driver, certifies);
    make_lines(&run, stretch->lines, stretch->count - 1);
    text_free(&run.text);
    call_read(&call, stretch->lines[stretch->count - 1], 1);
    left = RafkudinCallsLeft(run.core);
    refuse(first, last);
    returned.status = serve(run.core, &call);
    refuse_none();
    HOLDS(RafkudinCallsLeft(run.core) == left - 1);
    returned.lost_certificate =
        RafkudinCertificate(run.core, NULL, 0, &length) == RAFKUDIN_OUT_OF_RESOURCES;
    HOLDS(!returned.lost_certificate || (certifies && was_refused));
    returned.reply = printed(run.core);
    if (questions != NULL)
        make_lines(&run, questions->lines, questions->count);
    else
        run_call(&run, &call, 1);
    returned.answers = run.text;
    RafkudinFree(run.core);
    return returned;
}

/* What the questions are answered without the call. */
static struct text answers_without(const struct stretch *stretch, const struct stretch *questions,
                                   bool certifies)
{
    struct run run = {.core = make_core(stretch->has_driver, certifies), .certify = certifies};

    make_lines(&run, stretch->lines, stretch->count - 1);
    text_free(&run.text);
    make_lines(&run, questions->lines, questions->count);
    RafkudinFree(run.core);
    return run.text;
}

static bool are_equal(const struct text *one, const struct text *other)
{
    return one->length == other->length &&
           (one->length == 0 || memcmp(one->bytes, other->bytes, one->length) == 0);
}

/* A stretch of the file, what its call and the questions return where nothing is refused, and what
 * the questions do without it. */
struct row {
    const struct stretch *stretch, *questions;
    bool certifies;
    struct returned plain;
    struct text without;
    struct text again; /* what is printed of the call where it is made once */
    bool may_be_out;   /* the call may be out of memory */
    unsigned outs;     /* how often it was */
};

/* Whether a call that was refused memory was out of memory, and left all as it was. Else it was
 * served as ever, but perhaps for its certificate. */
static bool is_out(const struct row *row, const struct returned *returned)
{
    if (returned->status == row->plain.status) {
        HOLDS(returned->lost_certificate || are_equal(&returned->reply, &row->plain.reply));
        HOLDS(are_equal(&returned->answers, &row->plain.answers));
        return false;
    }
    HOLDS(returned->status == RAFKUDIN_OUT_OF_RESOURCES);
    HOLDS(are_equal(&returned->answers, &row->without));
    return true;
}

/* Refuses an allocation alone, or it and all after it, and returns whether there was such a one. A
 * call that may not be out of memory is refused for another cause, or lacks its certificate
 * then. */
static bool try_number(struct row *row, unsigned long first, unsigned long last)
{
    struct returned returned =
        make_refused(row->stretch, row->questions, row->certifies, first, last);
    bool refused = was_refused, out = is_out(row, &returned);
    bool is_all = refused && last == ULONG_MAX && !returned.lost_certificate;

    HOLDS(out ? refused && row->may_be_out
              : !is_all || (!row->may_be_out && row->plain.status != RAFKUDIN_SUCCESS));
    returned_free(&returned);
    if (!out)
        return refused;
    row->outs++;
    returned = make_refused(row->stretch, NULL, row->certifies, first, last);
    HOLDS(are_equal(&returned.answers, &row->again));
    returned_free(&returned);
    return true;
}

/* What is printed of a call where it is made once, as `run_call` prints it. */
static struct text plainly_printed(const struct stretch *stretch, bool certifies)
{
    struct run run = {.core = make_core(stretch->has_driver, certifies), .certify = certifies};
    struct call call;

    make_lines(&run, stretch->lines, stretch->count - 1);
    text_free(&run.text);
    call_read(&call, stretch->lines[stretch->count - 1], 1);
    run_call(&run, &call, 1);
    RafkudinFree(run.core);
    return run.text;
}

/* Which calls take memory: as the file says of the program, but for those that fill a buffer of the
 * caller's with the map or the pool's bytes, and for AllocatePages, for which a new core has memory;
 * and those for which the map is kept. A call that is refused for another cause may take some
 * before. */
static void try_count(const struct row *row, const struct call *call, unsigned long count)
{
    bool keeps_map = row->certifies && may_be_certified(call);

    HOLDS((row->outs > 0) == row->may_be_out);
    HOLDS(count > 0 || (!row->may_be_out && !keeps_map));
    HOLDS(count == 0 || row->may_be_out || keeps_map || row->plain.status != RAFKUDIN_SUCCESS);
}

static void try_row(const struct stretch *stretch, const struct stretch *questions, bool certifies)
{
    struct row row = {.stretch = stretch, .questions = questions, .certifies = certifies};
    size_t length = strlen(stretch->reply);
    unsigned long number = 1;
    struct call call;
    bool changes;

    call_read(&call, stretch->lines[stretch->count - 1], 1);
    changes = call.verb == PAGES || call.verb == FREE_PAGES || call.verb == FREE_POOL ||
              (stretch->takes_memory && !only_asks(&call));
    row.plain = make_refused(stretch, questions, certifies, 0, 0);
    row.may_be_out = (stretch->takes_memory && call.verb != MAP && call.verb != READ &&
                      call.verb != PAGES) ||
                     (certifies && row.plain.status == RAFKUDIN_SUCCESS && call.verb == PAGES &&
                      may_be_certified(&call));
    row.without = answers_without(stretch, questions, certifies);
    row.again = plainly_printed(stretch, certifies);
    HOLDS(row.again.length > 2 + length && memcmp(row.again.bytes + 2, stretch->reply, length) == 0);
    HOLDS(row.again.bytes[2 + length] == '\n');
    while (try_number(&row, number, ULONG_MAX)) {
        HOLDS(try_number(&row, number, number));
        number++;
    }
    call_read(&call, stretch->lines[stretch->count - 1], 1);
    try_count(&row, &call, number - 1);
    /* What a call changes shows in the answers. */
    HOLDS(!changes || row.plain.status != RAFKUDIN_SUCCESS ||
          !are_equal(&row.plain.answers, &row.without));
    returned_free(&row.plain);
    text_free(&row.without);
    text_free(&row.again);
}

int main(int count, char **names)
{
    static struct stretch stretches[200];
    size_t rows = 0;
    FILE *file;

    fault_program = "refused_calls";
    file = count == 2 ? fopen(names[1], "rb") : NULL;
    if (file == NULL)
        fail("no file");
    while (rows < 200 && stretch_read(&stretches[rows], file))
        rows += stretches[rows].count > 0;
    fclose(file);
    HOLDS(rows > 60 && stretches[rows - 1].count == 29);
    for (size_t row = 0; row + 1 < rows; row++) {
        try_row(&stretches[row], &stretches[rows - 1], false);
        try_row(&stretches[row], &stretches[rows - 1], true);
    }
    while (rows > 0)
        stretch_free(&stretches[--rows]);
    return points_end("refused_calls");
}
