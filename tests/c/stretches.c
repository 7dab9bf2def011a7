/* What stretches.h declares. */
#include "stretches.h"

#include "fault.h"

#include <stdlib.h>

static void push(struct stretches *stretches, struct stretch stretch)
{
    if (stretch.first >= stretch.end)
        return;
    if (stretches->count == stretches->room) {
        stretches->room = 2 * stretches->room + 64;
        stretches->list = grow(stretches->list, stretches->room * sizeof stretch);
    }
    stretches->list[stretches->count++] = stretch;
}

/* The part of a stretch between two page numbers. */
static struct stretch part_of(struct stretch stretch, uint64_t first, uint64_t end)
{
    if (stretch.first < first)
        stretch.first = first;
    if (stretch.end > end)
        stretch.end = end;
    return stretch;
}

static int compare_stretches(const void *one, const void *other)
{
    const struct stretch *first = one, *second = other;

    return (first->first > second->first) - (first->first < second->first);
}

struct stretches stretches_of(const struct machine *machine, bool has_specific_purpose)
{
    struct stretches stretches = {NULL, 0, 0};

    for (size_t at = 0; at < machine->size; at += RAFKUDIN_DESCRIPTOR_SIZE) {
        struct rafkudin_descriptor entry = descriptor_at(machine->records + at);
        uint64_t first = entry.physical_start / PAGE_SIZE, end = first + entry.number_of_pages;
        uint64_t third = 0;
        struct stretch stretch = {first, end, entry.type, entry.attribute, false}, middle;

        if (has_specific_purpose && entry.type == RAFKUDIN_CONVENTIONAL)
            third = entry.number_of_pages / 3;
        middle = part_of(stretch, first + third, first + 2 * third);
        middle.attributes |= RAFKUDIN_MEMORY_SP;
        push(&stretches, part_of(stretch, first, first + third));
        push(&stretches, middle);
        push(&stretches, part_of(stretch, first + 2 * third, end));
    }
    qsort(stretches.list, stretches.count, sizeof *stretches.list, compare_stretches);
    return stretches;
}

struct rafkudin *core_of(const struct stretches *stretches, uint64_t granule)
{
    size_t size = stretches->count * RAFKUDIN_DESCRIPTOR_SIZE;
    uint8_t *records = grow(NULL, size);
    struct rafkudin *core = NULL;
    uint64_t status;

    for (size_t at = 0; at < stretches->count; at++) {
        const struct stretch *stretch = &stretches->list[at];

        put_record(records + at * RAFKUDIN_DESCRIPTOR_SIZE, stretch->type, stretch->first,
                   stretch->end - stretch->first, stretch->attributes);
    }
    status = RafkudinMake(records, size, RAFKUDIN_DESCRIPTOR_SIZE, granule, NULL, 0, &core);
    free(records);
    return status == RAFKUDIN_SUCCESS ? core : NULL;
}

/* The part of a stretch that changes, as it is then. */
static struct stretch changed_part(struct stretch stretch, const struct change *change)
{
    bool is_runtime = change->type == RAFKUDIN_RUNTIME_SERVICES_CODE ||
                      change->type == RAFKUDIN_RUNTIME_SERVICES_DATA;

    stretch = part_of(stretch, change->first, change->end);
    stretch.type = change->type;
    stretch.attributes &= ~RAFKUDIN_MEMORY_RUNTIME;
    if (is_runtime)
        stretch.attributes |= RAFKUDIN_MEMORY_RUNTIME;
    stretch.is_placed = change->is_placed;
    return stretch;
}

void stretches_change(struct stretches *stretches, const struct change *change)
{
    struct stretches after = {NULL, 0, 0};

    for (size_t at = 0; at < stretches->count; at++) {
        struct stretch stretch = stretches->list[at];

        push(&after, part_of(stretch, 0, change->first));
        push(&after, changed_part(stretch, change));
        push(&after, part_of(stretch, change->end, UINT64_MAX));
    }
    free(stretches->list);
    *stretches = after;
}

static bool is_such(const struct stretch *stretch, enum wanted wanted)
{
    if (wanted == PLACED)
        return stretch->is_placed;
    return stretch->type == RAFKUDIN_CONVENTIONAL &&
           (wanted == FREE || (stretch->attributes & RAFKUDIN_MEMORY_SP) == 0);
}

bool are_all(const struct stretches *stretches, uint64_t first, uint64_t end, enum wanted wanted)
{
    uint64_t next = first;

    for (size_t at = 0; at < stretches->count; at++) {
        const struct stretch *stretch = &stretches->list[at];

        if (is_such(stretch, wanted) && stretch->first <= next && next < stretch->end)
            next = stretch->end;
    }
    return first < end && next >= end;
}

bool is_map_of(const struct rafkudin *core, const struct stretches *stretches)
{
    size_t entries = 0;

    for (size_t at = 0; at < stretches->count; entries++) {
        struct stretch stretch = stretches->list[at];
        struct rafkudin_descriptor entry;

        for (at++; at < stretches->count && stretches->list[at].first == stretch.end &&
                   stretches->list[at].type == stretch.type &&
                   stretches->list[at].attributes == stretch.attributes;
             at++)
            stretch.end = stretches->list[at].end;
        if (RafkudinDescriptor(core, entries, &entry) != RAFKUDIN_SUCCESS ||
            entry.type != stretch.type || entry.physical_start != stretch.first * PAGE_SIZE ||
            entry.number_of_pages != stretch.end - stretch.first ||
            entry.attribute != stretch.attributes)
            return false;
    }
    return RafkudinDescriptors(core) == entries;
}

uint64_t granule_of(uint32_t type, uint64_t granule)
{
    bool is_granular = type == RAFKUDIN_RESERVED || type == RAFKUDIN_RUNTIME_SERVICES_CODE ||
                       type == RAFKUDIN_RUNTIME_SERVICES_DATA || type == RAFKUDIN_ACPI_MEMORY_NVS;

    return is_granular ? granule : 1;
}

uint64_t granule_at(const struct stretches *stretches, uint64_t page, uint64_t granule)
{
    for (size_t at = 0; at < stretches->count; at++)
        if (stretches->list[at].first <= page && page < stretches->list[at].end)
            return granule_of(stretches->list[at].type, granule);
    return 1;
}
