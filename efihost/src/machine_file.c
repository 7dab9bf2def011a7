/* Machine files. What is wrong is looked for in the order of docs/FORMATS.md. */
#include "machine_file.h"

#include "json.h"
#include "numbers.h"

#include <stdio.h>
#include <stdlib.h>
#include <string.h>

#define MAX_DESCRIPTORS 65536U
#define MAX_DRIVERS 64U
#define PAGE 4096U
#define PAGES (1ULL << 52) /* the numbers of pages are below this */
#define MAX_HEXADECIMAL 18 /* bytes of its text */

static char fault[64];

void put_number(uint8_t *bytes, size_t count, uint64_t number)
{
    for (size_t at = 0; at < count; at++, number >>= 8)
        bytes[at] = (uint8_t)(number & 0xff);
}

uint64_t number_at(const uint8_t *bytes, size_t count)
{
    uint64_t number = 0;

    while (count-- != 0)
        number = number << 8 | bytes[count];
    return number;
}

static bool say(const char *what)
{
    snprintf(fault, sizeof fault, "%s", what);
    return false;
}

/* The fault of a field of a member of a list. */
static bool say_field(const char *list, size_t number, const char *field)
{
    snprintf(fault, sizeof fault, "machine: %s %zu: %s", list, number, field);
    return false;
}

static bool read_hexadecimal(const char *value, uint64_t *number)
{
    char bytes[MAX_HEXADECIMAL];
    size_t length;

    return value != NULL && json_string(value, bytes, sizeof bytes, &length) &&
           hexadecimal_number(bytes, length, number);
}

static bool read_whole(const char *value, uint64_t most, uint64_t *number)
{
    return value != NULL && json_whole(value, number) && *number <= most;
}

static bool is_type(uint64_t type)
{
    return type <= RAFKUDIN_UNACCEPTED || type >= 0x70000000U;
}

/* Writes the record of a descriptor. */
static bool read_descriptor(const char *value, size_t number, uint8_t *record)
{
    uint64_t type, start, pages, attributes;

    if (!read_whole(json_member(value, "type"), UINT32_MAX, &type) || !is_type(type))
        return say_field("descriptor", number, "type");
    if (!read_hexadecimal(json_member(value, "start"), &start) || start % PAGE != 0)
        return say_field("descriptor", number, "start");
    if (!read_whole(json_member(value, "pages"), PAGES - start / PAGE, &pages) || pages == 0)
        return say_field("descriptor", number, "pages");
    if (!read_hexadecimal(json_member(value, "attributes"), &attributes) ||
        (type == RAFKUDIN_CONVENTIONAL && (attributes & RAFKUDIN_MEMORY_RUNTIME) != 0))
        return say_field("descriptor", number, "attributes");
    memset(record, 0, RAFKUDIN_DESCRIPTOR_SIZE);
    put_number(record, 4, type);
    put_number(record + 8, 8, start);
    put_number(record + 24, 8, pages);
    put_number(record + 32, 8, attributes);
    return true;
}

static bool read_memory(struct machine *machine, const char *root)
{
    const char *list = json_member(root, "memory");
    size_t count, number = 0;

    if (list == NULL || !json_is_list(list))
        return say("machine: no memory list");
    count = json_count(list);
    if (count > MAX_DESCRIPTORS)
        return say("machine: too many descriptors");
    machine->size = count * RAFKUDIN_DESCRIPTOR_SIZE;
    machine->records = malloc(machine->size + 1);
    if (machine->records == NULL)
        return say("out of memory");
    for (const char *item = json_first(list); item != NULL; item = json_next(item), number++)
        if (!read_descriptor(item, number, machine->records + number * RAFKUDIN_DESCRIPTOR_SIZE))
            return false;
    return true;
}

static bool read_guid(const char *value, struct rafkudin_guid *guid)
{
    char bytes[MAX_GUID_LENGTH];
    size_t length;

    return json_string(value, bytes, sizeof bytes, &length) && guid_read(bytes, length, guid);
}

/* A list of GUIDs, up to 8. */
static bool read_guids(const char *list, struct rafkudin_guid guids[8], uint64_t *count)
{
    *count = 0;
    if (list == NULL || !json_is_list(list))
        return false;
    for (const char *item = json_first(list); item != NULL; item = json_next(item))
        if (*count == 8 || !read_guid(item, &guids[(*count)++]))
            return false;
    return true;
}

/* A list of a GUID and a value. */
static bool read_pair(const char *list, struct rafkudin_interface *interface)
{
    const char *item;

    if (!json_is_list(list) || (item = json_first(list)) == NULL ||
        !read_guid(item, &interface->guid))
        return false;
    item = json_next(item);
    return item != NULL && read_hexadecimal(item, &interface->value) && json_next(item) == NULL;
}

/* A child: a list of pairs, up to 4. */
static bool read_child(const char *list, struct rafkudin_child *child)
{
    if (!json_is_list(list))
        return false;
    for (const char *item = json_first(list); item != NULL; item = json_next(item))
        if (child->count == 4 || !read_pair(item, &child->interfaces[child->count++]))
            return false;
    return true;
}

/* A list of children, up to 8. */
static bool read_children(const char *list, struct rafkudin_driver *driver)
{
    if (list == NULL || !json_is_list(list))
        return false;
    for (const char *item = json_first(list); item != NULL; item = json_next(item))
        if (driver->children_count == 8 ||
            !read_child(item, &driver->children[driver->children_count++]))
            return false;
    return true;
}

static bool read_driver(const char *value, size_t number, struct rafkudin_driver *driver)
{
    const char *stops = json_member(value, "stops");
    uint64_t version;

    memset(driver, 0, sizeof *driver);
    if (!read_whole(json_member(value, "version"), UINT32_MAX, &version))
        return say_field("driver", number, "version");
    driver->version = (uint32_t)version;
    if (!read_guids(json_member(value, "needs"), driver->needs, &driver->needs_count))
        return say_field("driver", number, "needs");
    if (!read_guids(json_member(value, "opens"), driver->opens, &driver->opens_count))
        return say_field("driver", number, "opens");
    if (!read_children(json_member(value, "children"), driver))
        return say_field("driver", number, "children");
    return (stops != NULL && json_flag(stops, &driver->stops)) ||
           say_field("driver", number, "stops");
}

static bool read_drivers(struct machine *machine, const char *root)
{
    const char *list = json_member(root, "drivers");
    size_t number = 0;

    if (list != NULL && !json_is_list(list))
        return say("machine: no driver list");
    machine->driver_count = list == NULL ? 0 : json_count(list);
    if (machine->driver_count > MAX_DRIVERS)
        return say("machine: too many drivers");
    machine->drivers = malloc((machine->driver_count + 1) * sizeof *machine->drivers);
    if (machine->drivers == NULL)
        return say("out of memory");
    if (list == NULL)
        return true;
    for (const char *item = json_first(list); item != NULL; item = json_next(item), number++)
        if (!read_driver(item, number, &machine->drivers[number]))
            return false;
    return true;
}

static int by_start(const void *one, const void *other)
{
    uint64_t a = number_at((const uint8_t *)one + 8, 8);
    uint64_t b = number_at((const uint8_t *)other + 8, 8);

    return a < b ? -1 : a > b;
}

static bool look_for_overlaps(const struct machine *machine)
{
    size_t count = machine->size / RAFKUDIN_DESCRIPTOR_SIZE;
    uint8_t *sorted = malloc(machine->size + 1);
    bool overlap = false;

    if (sorted == NULL)
        return say("out of memory");
    memcpy(sorted, machine->records, machine->size);
    qsort(sorted, count, RAFKUDIN_DESCRIPTOR_SIZE, by_start);
    for (size_t i = 1; i < count; i++) {
        const uint8_t *next = sorted + i * RAFKUDIN_DESCRIPTOR_SIZE;
        const uint8_t *before = next - RAFKUDIN_DESCRIPTOR_SIZE;
        uint64_t apart = number_at(next + 8, 8) - number_at(before + 8, 8);

        overlap |= apart / PAGE < number_at(before + 24, 8);
    }
    free(sorted);
    return !overlap || say("machine: descriptors overlap");
}

static bool read_granule(struct machine *machine, const char *root)
{
    const char *granule = json_member(root, "granule");

    machine->granule = 1;
    if (granule == NULL || (json_whole(granule, &machine->granule) &&
                            (machine->granule == 1 || machine->granule == 16)))
        return true;
    return say("machine: granule");
}

static bool read_all(const char *text, size_t length, struct machine *machine)
{
    const char *root;

    if (length > MAX_MACHINE_FILE_SIZE)
        return say("machine: too long");
    root = json_root(text, length);
    if (root == NULL)
        return say("machine: not JSON");
    return read_memory(machine, root) && read_drivers(machine, root) &&
           look_for_overlaps(machine) && read_granule(machine, root);
}

const char *machine_file_read(const char *text, size_t length, struct machine *machine)
{
    *machine = (struct machine){0};
    if (read_all(text, length, machine))
        return NULL;
    machine_free(machine);
    return fault;
}

void machine_free(struct machine *machine)
{
    free(machine->records);
    free(machine->drivers);
    *machine = (struct machine){0};
}
