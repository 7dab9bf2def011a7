/* The trace of the core's calls, which `bootcore` replays: the calls, the machine, and the replies
 * that it prints. The line of a call and what is printed of it are the library's. With --certify
 * each placement's certificate is checked as it is made, and follows its reply. */
#include "host.h"

#include <stdlib.h>
#include <string.h>

#define MAX_LINES 999000U

static FILE *calls_file, *replies_file;
static unsigned lines;

/* A text of the library's, in a buffer that grows until it has room for it. */
static struct {
    uint8_t *bytes;
    size_t room;
    uint64_t length;
} text;

static FILE *open_beside(const char *name, const char *ending)
{
    char path[4096];
    FILE *file;

    snprintf(path, sizeof path, "%s%s", name, ending);
    file = fopen(path, "w");
    if (file == NULL)
        refuse("cannot write %s", path);
    return file;
}

static void write_machine(const char *name, const uint8_t *records, size_t count,
                          uint64_t granule)
{
    FILE *file = open_beside(name, ".machine.json");

    fprintf(file, "{\n  \"granule\": %lu,\n  \"memory\": [\n", granule);
    for (size_t i = 0; i < count; i++) {
        EFI_MEMORY_DESCRIPTOR entry;

        memcpy(&entry, records + i * sizeof entry, sizeof entry);
        fprintf(file, "    { \"type\": %u, \"start\": \"0x%lx\", \"pages\": %lu, ", entry.Type,
                entry.PhysicalStart, entry.NumberOfPages);
        fprintf(file, "\"attributes\": \"0x%lx\" }%s\n", entry.Attribute,
                i + 1 < count ? "," : "");
    }
    fprintf(file, "  ]\n}\n");
    fclose(file);
}

void open_trace(const char *name, const uint8_t *records, size_t count, uint64_t granule)
{
    calls_file = open_beside(name, "");
    replies_file = open_beside(name, ".replies");
    write_machine(name, records, count, granule);
}

/* The trace ends with the memory map, by a line that is no call, so its reply is made here; but not
 * where the run ended within the core, which then can't be asked. A run that has more calls than a
 * trace may have lines ends its trace before. */
void close_trace(void)
{
    struct rafkudin_descriptor entry;
    FILE *file = calls_file;

    if (file == NULL)
        return;
    calls_file = NULL;
    if (!host.in_core) {
        fprintf(file, "list\n");
        fprintf(replies_file, "%u list descriptors=%zu\n", lines + 1,
                RafkudinDescriptors(host.core));
        for (size_t i = 0; RafkudinDescriptor(host.core, i, &entry) == RAFKUDIN_SUCCESS; i++)
            fprintf(replies_file, "  %u 0x%lx %lu 0x%lx\n", entry.type, entry.physical_start,
                    entry.number_of_pages, entry.attribute);
    }
    fclose(file);
    fclose(replies_file);
}

/* Whether there is a trace still; it ends where it has as many lines as a trace may have. */
bool tracing(void)
{
    if (calls_file != NULL && lines >= MAX_LINES) {
        close_trace();
        fprintf(stderr, "efihost: the trace ends after %u calls\n", lines);
    }
    return calls_file != NULL;
}

/* Makes room for a text that had none; whether it is to be asked for once more. */
static bool grows(uint64_t status)
{
    if (status != RAFKUDIN_BUFFER_TOO_SMALL)
        return false;
    text.room = text.length * 2;
    text.bytes = must(realloc(text.bytes, text.room));
    return true;
}

static void put_text(FILE *file, uint64_t status)
{
    if (status != RAFKUDIN_SUCCESS)
        refuse("the library has no text of call %u: %s", lines, status_text(status));
    fwrite(text.bytes, 1, text.length, file);
}

/* The line of a call; whether there is one. Calls for which no line can ask, as a read of more than
 * 65,536 bytes, are left out: those of the host change nothing. */
static bool put_line(const struct rafkudin_call *call)
{
    uint64_t status;

    do
        status = RafkudinTraceLine(host.core, call, text.bytes, text.room, &text.length);
    while (grows(status));
    if (status == RAFKUDIN_NOT_FOUND)
        return false;
    put_text(calls_file, status);
    lines++;
    return true;
}

/* The last call, with what the program prints of it. This and those below are for a trace that
 * there is. */
void trace_call(const struct rafkudin_call *call)
{
    uint64_t status;

    if (!put_line(call))
        return;
    do
        status = RafkudinReplyLine(host.core, lines, text.bytes, text.room, &text.length);
    while (grows(status));
    put_text(replies_file, status);
}

/* GetMemoryMap and PoolRead, whose replies are in the caller's buffers. */
void trace_map(const struct rafkudin_call *call, struct rafkudin_map_reply *reply)
{
    uint64_t status;

    if (!put_line(call))
        return;
    reply->number = lines;
    do
        status = RafkudinMapReplyLine(host.core, reply, text.bytes, text.room, &text.length);
    while (grows(status));
    put_text(replies_file, status);
}

void trace_read(const struct rafkudin_call *call, struct rafkudin_read_reply *reply)
{
    uint64_t status;

    if (!put_line(call))
        return;
    reply->number = lines;
    do
        status = RafkudinReadReplyLine(host.core, reply, text.bytes, text.room, &text.length);
    while (grows(status));
    put_text(replies_file, status);
}

/* An UninstallProtocolInterface that is part of a larger call, which succeeded. */
void trace_uninstalled(const struct rafkudin_call *call)
{
    if (put_line(call))
        fprintf(replies_file, "%u uninstall SUCCESS\n", lines);
}

void check_certificate(void)
{
    uint64_t line = 0, status;

    if (!host.options.certify)
        return;
    do
        status = RafkudinCertificate(host.core, text.bytes, text.room, &text.length);
    while (grows(status));
    if (status == RAFKUDIN_SUCCESS &&
        RafkudinCheck(text.bytes, text.length, &line) != RAFKUDIN_SUCCESS)
        refuse("a certificate was refused: %.*s", (int)text.length, (const char *)text.bytes);
}
