/* Machine files. */
#include "machine.h"

#include "fault.h"

#include <stdlib.h>

struct rafkudin_descriptor descriptor_at(const uint8_t *record)
{
    return (struct rafkudin_descriptor){
        .type = (uint32_t)number_at(record, 4),
        .physical_start = number_at(record + 8, 8),
        .number_of_pages = number_at(record + 24, 8),
        .attribute = number_at(record + 32, 8),
    };
}

/* The whole file, or its start if it is too long, with a zero byte behind it. */
static char *read_whole(FILE *file, size_t *length)
{
    char *bytes = NULL;
    size_t taken, room = 0;

    *length = 0;
    do {
        room += room / 2 + 65536;
        bytes = grow(bytes, room);
        taken = fread(bytes + *length, 1, room - 1 - *length, file);
        *length += taken;
    } while (taken != 0 && *length <= MAX_MACHINE_FILE_SIZE);
    if (ferror(file))
        fail("cannot read machine");
    bytes[*length] = '\0';
    return bytes;
}

struct machine machine_read(FILE *file)
{
    struct machine machine;
    size_t length;
    char *bytes = read_whole(file, &length);
    const char *fault = machine_file_read(bytes, length, &machine);

    if (fault != NULL)
        fail("%s", fault);
    free(bytes);
    return machine;
}

struct machine machine_open(const char *path)
{
    FILE *file = fopen(path, "rb");
    struct machine machine;

    if (file == NULL)
        fail("cannot read machine");
    machine = machine_read(file);
    fclose(file);
    return machine;
}

struct rafkudin *machine_core(const struct machine *machine)
{
    struct rafkudin *core = NULL;
    uint64_t status =
        RafkudinMake(machine->records, machine->size, RAFKUDIN_DESCRIPTOR_SIZE, machine->granule,
                     machine->drivers, machine->driver_count, &core);

    if (status == RAFKUDIN_OUT_OF_RESOURCES)
        fail("out of memory");
    if (status != RAFKUDIN_SUCCESS)
        fail("machine: refused by the library, status 0x%llx", (unsigned long long)status);
    return core;
}
