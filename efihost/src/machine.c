/* The machine: its memory map, of a machine file or a default of 256 MB, and that memory at its own
 * addresses in this process. */
#include "host.h"
#include "machine_file.h"

#include <errno.h>
#include <stdlib.h>
#include <string.h>
#include <sys/mman.h>

#define LOWEST 0x10000ULL /* what a process may have lies at or above this */
#define GAPS_END 0x7fff0000ULL
#define MAX_PAGES 0x800000 /* of memory that the core is handed, of which it keeps a byte each */
#define DATA (PROT_READ | PROT_WRITE)
#define ALL (DATA | PROT_EXEC)
#define OF_SYSTEMS (RAFKUDIN_UNACCEPTED + 1) /* all types that are for systems */

static struct machine_range *ranges;
static size_t range_count;
static uint64_t granule = 1;
static bool all_open; /* for good */

/* Whether a type of memory has bytes behind it that a program may use. */
static bool has_bytes(const struct machine_range *range)
{
    if (range->type == RAFKUDIN_RESERVED)
        return (range->attributes & 8) != 0;
    return range->type != RAFKUDIN_UNUSABLE && range->type != RAFKUDIN_MEMORY_MAPPED_IO &&
           range->type != RAFKUDIN_MEMORY_MAPPED_IO_PORT_SPACE;
}

static void keep(struct machine_range range)
{
    ranges = must(realloc(ranges, (range_count + 1) * sizeof *ranges));
    ranges[range_count++] = range;
}

/* Adds a range of memory. What lies below the lowest address that a process may have, or where this
 * process has something already, is reserved on the machine that is run, and a line says so. */
static void add(uint32_t type, uint64_t start, uint64_t pages, uint64_t attributes)
{
    struct machine_range range = {start, pages, attributes, type, false, DATA, NULL, NULL};

    if (has_bytes(&range) && start < LOWEST) {
        uint64_t below = (LOWEST - start) / PAGE;
        struct machine_range low = {start, below < pages ? below : pages, attributes,
                                    type == RAFKUDIN_CONVENTIONAL ? RAFKUDIN_RESERVED : type,
                                    false, DATA, NULL, NULL};

        keep(low);
        if (below >= pages)
            return;
        range.start = LOWEST;
        range.pages = pages - below;
    }
    if (has_bytes(&range)) {
        void *at = POINTER(range.start);
        int flags = MAP_PRIVATE | MAP_ANONYMOUS | MAP_NORESERVE | MAP_FIXED_NOREPLACE;

        range.usual = host.checks && type == RAFKUDIN_CONVENTIONAL ? PROT_NONE : DATA;
        range.mapped = mmap(at, range.pages * PAGE, range.usual, flags, -1, 0) == at;
        if (!range.mapped) {
            fprintf(stderr, "efihost: this process cannot have the memory at 0x%lx, %lu pages\n",
                    range.start, range.pages);
            if (type == RAFKUDIN_CONVENTIONAL)
                range.type = RAFKUDIN_RESERVED;
        }
    }
    keep(range);
}

/* What a machine file says of drivers is looked at, and else ignored: drivers are code here. */
static void read_machine(const char *name)
{
    size_t length;
    char *text = (char *)read_file(name, &length);
    const char *fault;
    struct machine machine;

    if (text == NULL)
        refuse("cannot read machine %s: %s", name, strerror(errno));
    fault = machine_file_read(text, length, &machine);
    if (fault != NULL)
        refuse("%s", fault);
    granule = machine.granule;
    for (size_t at = 0; at < machine.size; at += RAFKUDIN_DESCRIPTOR_SIZE) {
        EFI_MEMORY_DESCRIPTOR entry;

        memcpy(&entry, machine.records + at, sizeof entry);
        add(entry.Type, entry.PhysicalStart, entry.NumberOfPages, entry.Attribute);
    }
    machine_free(&machine);
    free(text);
}

static int by_start(const void *one, const void *other)
{
    const struct machine_range *a = one, *b = other;

    return a->start < b->start ? -1 : a->start > b->start;
}

/* Makes addresses this process's, where nothing is to be. */
static bool take_hole(uint64_t start, uint64_t end)
{
    int flags = MAP_PRIVATE | MAP_ANONYMOUS | MAP_NORESERVE | MAP_FIXED_NOREPLACE;
    void *at = POINTER(start);

    return start == end || (start < end && mmap(at, end - start, PROT_NONE, flags, -1, 0) == at);
}

/* The memory from the first conventional page to the last one. False where that is long, or where
 * this process cannot have what lies between. */
static bool one_run(struct rafkudin_memory *memory)
{
    size_t first = 0, behind = range_count;
    uint64_t start, end;

    while (first < behind && ranges[first].type != RAFKUDIN_CONVENTIONAL)
        first++;
    while (first < behind && ranges[behind - 1].type != RAFKUDIN_CONVENTIONAL)
        behind--;
    if (first == behind)
        return false;
    start = end = ranges[first].start;
    if ((ranges[behind - 1].start - start) / PAGE + ranges[behind - 1].pages > MAX_PAGES)
        return false;
    for (size_t i = first; i < behind; i++) {
        if (!take_hole(end, ranges[i].start))
            return false;
        end = ranges[i].start + ranges[i].pages * PAGE;
        if (!ranges[i].mapped && !take_hole(ranges[i].start, end))
            return false;
    }
    memory->start = POINTER(start);
    memory->pages = (end - start) / PAGE;
    return true;
}

/* Makes the core of the ranges, in the form in which GetMemoryMap writes them. Its pool lies in the
 * machine's memory, but where each access to that is looked at: free bytes of the pool are the
 * core's then. */
static void make_core(void)
{
    EFI_MEMORY_DESCRIPTOR *records = must(calloc(range_count + 1, sizeof *records));
    const size_t size = range_count * sizeof *records;
    struct rafkudin_memory memory;
    uint64_t status;

    for (size_t i = 0; i < range_count; i++) {
        records[i].Type = ranges[i].type;
        records[i].PhysicalStart = ranges[i].start;
        records[i].NumberOfPages = ranges[i].pages;
        records[i].Attribute = ranges[i].attributes;
    }
    host.over_memory = !host.checks && one_run(&memory);
    if (host.over_memory)
        status = RafkudinMakeOver(memory, NUMBER(memory.start) / PAGE, (const uint8_t *)records,
                                  size, sizeof *records, granule, NULL, 0, &host.core);
    else
        status = RafkudinMake((const uint8_t *)records, size, sizeof *records, granule, NULL, 0,
                              &host.core);
    if (status != RAFKUDIN_SUCCESS)
        refuse("machine: the core refuses it: %s", status_text(status));
    RafkudinCertify(host.core, host.options.certify);
    RafkudinRecord(host.core, host.options.trace != NULL);
    if (host.options.trace != NULL)
        open_trace(host.options.trace, (const uint8_t *)records, range_count, granule);
    free(records);
}

/* What is kept of each page of a range: in what it differs from the range. */
static void keep_pages(struct machine_range *range)
{
    range->changed = must(calloc(range->pages, 1));
    range->other_type = must(calloc(range->pages, 1));
}

void make_machine(const char *file)
{
    if (file != NULL) {
        read_machine(file);
    } else {
        add(RAFKUDIN_CONVENTIONAL, LOWEST, 0x90, 0xf);
        add(RAFKUDIN_CONVENTIONAL, 0x100000, 0xff00, 0xf);
    }
    qsort(ranges, range_count, sizeof *ranges, by_start);
    make_core();
    for (size_t i = 0; i < range_count; i++)
        if (ranges[i].mapped)
            keep_pages(&ranges[i]);
}

/* Whether memory of a type is placed in whole granules of 16 pages. */
bool in_granules(uint32_t type)
{
    return granule == 16 &&
           (type == RAFKUDIN_RESERVED || type == RAFKUDIN_RUNTIME_SERVICES_CODE ||
            type == RAFKUDIN_RUNTIME_SERVICES_DATA || type == RAFKUDIN_ACPI_MEMORY_NVS);
}

/* Addresses that the machine doesn't have: the last of the largest gap below 2 GiB, or some above
 * all of its memory. 0: there is no such room. */
static uint64_t find_gap(uint64_t size)
{
    uint64_t best = 0, best_size = 0, end = 1ULL << 24;

    for (size_t i = 0; i <= range_count; i++) {
        uint64_t next = i == range_count || ranges[i].start > GAPS_END ? GAPS_END : ranges[i].start;

        if (next > end && next - end > best_size) {
            best_size = next - end;
            best = next - size;
        }
        if (i < range_count && ranges[i].start + ranges[i].pages * PAGE > end)
            end = ranges[i].start + ranges[i].pages * PAGE;
    }
    if (best_size > size)
        return best;
    end = end < 1ULL << 32 ? 1ULL << 32 : (end | ((1ULL << 30) - 1)) + 1;
    return end < 1ULL << 46 ? end : 0;
}

/* Makes a range of memory for the pool's blocks, which is shut and no part of the machine; or 0. */
uint64_t add_pool_range(uint64_t size)
{
    int flags = MAP_PRIVATE | MAP_ANONYMOUS | MAP_NORESERVE;
    int rights = all_open ? ALL : PROT_NONE;
    uint64_t at = find_gap(size), pages = (size + PAGE - 1) / PAGE;
    struct machine_range range = {
        at, pages, 0, RAFKUDIN_BOOT_SERVICES_DATA, true, rights, NULL, NULL};

    if (at == 0 || mmap(POINTER(at), size, rights, flags | MAP_FIXED_NOREPLACE, -1, 0) !=
                       POINTER(at)) {
        range.start = NUMBER(mmap(NULL, size, rights, flags, -1, 0));
        if (POINTER(range.start) == MAP_FAILED)
            return 0;
    }
    keep_pages(&range);
    keep(range);
    qsort(ranges, range_count, sizeof *ranges, by_start);
    return range.start;
}

/* The range of the machine with an address, or NULL. */
const struct machine_range *machine_range_at(uint64_t address)
{
    size_t low = 0, high = range_count;

    while (low < high) {
        size_t middle = low + (high - low) / 2;

        if (address < ranges[middle].start)
            high = middle;
        else if (address - ranges[middle].start >= ranges[middle].pages * PAGE)
            low = middle + 1;
        else
            return &ranges[middle];
    }
    return NULL;
}

/* The entry of the memory map with an address; false where there is none. */
static bool entry_at(uint64_t address, struct rafkudin_descriptor *entry)
{
    size_t low = 0, high = RafkudinDescriptors(host.core);

    while (low < high) {
        size_t middle = low + (high - low) / 2;

        if (RafkudinDescriptor(host.core, middle, entry) != RAFKUDIN_SUCCESS)
            return false;
        if (address < entry->physical_start)
            high = middle;
        else if (address - entry->physical_start >= entry->number_of_pages * PAGE)
            low = middle + 1;
        else
            return true;
    }
    return false;
}

/* The conventional memory around an address; false where it is of another type or none. */
bool conventional_range(uint64_t address, uint64_t *start, uint64_t *size)
{
    struct rafkudin_descriptor entry;

    if (!entry_at(address, &entry))
        return false;
    *start = entry.physical_start;
    *size = entry.number_of_pages * PAGE;
    return entry.type == RAFKUDIN_CONVENTIONAL;
}

static uint8_t short_type(uint32_t type)
{
    return (uint8_t)(type < OF_SYSTEMS ? type : OF_SYSTEMS);
}

/* The type of memory as it was noted; of those for systems it is only known that it is one. */
uint32_t memory_type(uint64_t address)
{
    const struct machine_range *range = machine_range_at(address);

    if (range == NULL || range->other_type == NULL)
        return RAFKUDIN_RESERVED;
    return short_type(range->type) ^ range->other_type[(address - range->start) / PAGE];
}

/* What a page of the machine may be used for. */
int memory_rights(uint64_t address)
{
    const struct machine_range *range = machine_range_at(address);

    if (range == NULL || range->changed == NULL)
        return PROT_NONE;
    return range->usual ^ range->changed[(address - range->start) / PAGE];
}

/* Linux limits how many pieces of memory with rights of their own a process has. Behind the last of
 * them all memory but that below the stack is opened for good, since what an image may use must be
 * open: harm is then seen where bytes are looked at, and no longer where it is done. */
static void open_for_good(void)
{
    fprintf(stderr, "efihost: this process can have no more pieces of memory (vm.max_map_count): "
                    "accesses are no longer seen\n");
    all_open = true;
    for (size_t i = 0; i < range_count; i++)
        if (ranges[i].mapped &&
            mprotect(POINTER(ranges[i].start), ranges[i].pages * PAGE, ALL) != 0)
            refuse("cannot open the memory at 0x%lx", ranges[i].start);
    if (host.stack != 0)
        mprotect(POINTER(host.stack - RED_PAGES * PAGE), RED_PAGES * PAGE, PROT_NONE);
}

/* Whether all these bytes are the same as the first, which is that one. */
static bool are_all(const uint8_t *bytes, size_t count, uint8_t byte)
{
    return *bytes == byte && memcmp(bytes, bytes + 1, count - 1) == 0;
}

/* Sets what pages of a range may be used for; the system is not asked where it is so already. */
static void protect_pages(const struct machine_range *range, uint64_t first, uint64_t end,
                          uint32_t rights)
{
    uint8_t *changed = range->changed + (first - range->start) / PAGE;
    uint8_t change = (uint8_t)(range->usual ^ (int)rights);
    size_t count = (end - first) / PAGE;

    if (all_open || are_all(changed, count, change))
        return;
    memset(changed, change, count);
    if (mprotect(POINTER(first), end - first, (int)rights) != 0)
        open_for_good();
}

/* Does something with every page that has one of these bytes, for the pages of each range at once. */
static void each_piece(uint64_t address, uint64_t size, uint32_t what,
                       void (*does)(const struct machine_range *range, uint64_t first,
                                    uint64_t end, uint32_t what))
{
    uint64_t first = address & ~(PAGE - 1), end = (address + size + PAGE - 1) & ~(PAGE - 1);

    while (first < end) {
        const struct machine_range *range = machine_range_at(first);
        uint64_t range_end = range == NULL ? end : range->start + range->pages * PAGE;
        uint64_t piece_end = range_end < end ? range_end : end;

        if (range != NULL && range->changed != NULL)
            does(range, first, piece_end, what);
        first = piece_end;
    }
}

/* Sets what every page with one of these bytes may be used for. */
void protect_memory(uint64_t address, uint64_t size, int rights)
{
    each_piece(address, size, (uint32_t)rights, protect_pages);
}

static void note_pages(const struct machine_range *range, uint64_t first, uint64_t end,
                       uint32_t type)
{
    memset(range->other_type + (first - range->start) / PAGE,
           short_type(range->type) ^ short_type(type), (end - first) / PAGE);
}

/* Notes the type of memory that the core has placed or freed. A handler of signals goes by that,
 * since it must not ask the core. */
void note_type(uint64_t address, uint64_t size, uint32_t type)
{
    uint64_t unit = in_granules(type) ? granule * PAGE : PAGE, first = address / unit * unit;

    each_piece(first, (address + size - first + unit - 1) / unit * unit, type, note_pages);
}

/* Makes memory what data may lie in. */
void open_memory(uint64_t address, uint64_t size)
{
    protect_memory(address, size, DATA);
}

void shut_memory(uint64_t address, uint64_t size)
{
    protect_memory(address, size, PROT_NONE);
}

/* Once boot services have ended, all memory is the application's, code and data. A run that uses up
 * its stack still ends below it. */
void open_all_memory(void)
{
    for (size_t i = 0; i < range_count; i++)
        if (ranges[i].mapped)
            protect_memory(ranges[i].start, ranges[i].pages * PAGE, ALL);
    shut_memory(host.stack - RED_PAGES * PAGE, RED_PAGES * PAGE);
}
