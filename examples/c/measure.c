/* What a call of the library costs:
 *
 *     measure [--reps COUNT] [--certify] [LOAD ..]
 *     measure [--reps COUNT] --growth MAX
 *
 * LOAD is pages-100, pages-1000, pages-10000, pages-100000 or pages-1000000 (the number of live
 * allocations, of mixed types and sizes), crowded-65536 (of descriptors, where a request finds no
 * place), pool-10000 (of blocks), handles-64, handles-1024 or handles-4096 (of handles),
 * drivers-64, drivers-1024 or drivers-4096 (of handles, on which a driver is started and stopped),
 * driven-4096 (of handles, all of which are driven then), children-64 or children-4096 (of handles,
 * where that driver makes a child), full-4096 (of handles, the same where no more can be made),
 * driver-children-64 or driver-children-4096 (of handles, where the child is a driver's),
 * stopped-64, stopped-4096, stopped-children-64 or stopped-children-4096 (of handles, on which no
 * driver can start again once one is stopped, without and with a child), bindings-64 or
 * bindings-4096 (of handles, whose driver binding is reinstalled), questions-64, questions-1024 or
 * questions-4096 (of handles and blocks, which are asked for one by one), keys-10000 (of
 * registrations), paths-4000 or vain-paths-4000 (of handles with device paths of nearly as many
 * nodes as the one of 60,000 that is looked for, which take 1 GB), or chain-4096 (of handles, each
 * the child of a driver on the one before); without any all are run. It prints nanoseconds a call,
 * the least of COUNT repetitions, each on a new core; what a call asks for is drawn before the
 * clock starts. `refused` is a call that is refused at once: what any call costs at least. With
 * --certify the core keeps the certificates of placements. With --growth two tables in Markdown are
 * printed: of what calls on pages cost in a churn at 100 live allocations, ten times as many and so
 * on up to MAX, and of a request that nothing can hold, without and with certificates. */
#include "fault.h"
#include "loads.h"

#include <inttypes.h>
#include <stdio.h>
#include <stdlib.h>
#include <string.h>

#define PAGE 4096
#define ROUNDS 8

/* The most calls of a round of the churn, and the most of the refill. */
#define MAX_ROUND 2500
#define MAX_REFILL 5000

#define REFUSED_CALLS 10000

/* How often the memory map is got at a time. */
#define MAPS 5

/* The requests that find no place, and the pages of a free range there. */
#define VAIN_REQUESTS 200
#define CROWDED_PAGES 4

/* The pages of a block with a path of 60,000 nodes of four bytes. */
#define PAGES_OF_PATH 60

/* The handles that the registrations meet, an interface on each. */
#define KEYED_HANDLES 1024

const struct rafkudin_guid driver_binding = {
    {0xab, 0x31, 0xa0, 0x18, 0x43, 0xb4, 0x1a, 0x4d, 0xa5, 0xc0, 0x0c, 0x09, 0x26, 0x1e, 0x9f, 0x71}};

/* A number that is drawn, below a limit. */
static uint64_t draw(struct load *load, uint64_t limit)
{
    load->drawn ^= load->drawn << 13;
    load->drawn ^= load->drawn >> 7;
    load->drawn ^= load->drawn << 17;
    return load->drawn % limit;
}

uint64_t draw_between(struct load *load, uint64_t least, uint64_t most)
{
    return least + draw(load, most - least + 1);
}

static struct request draw_pages(struct load *load)
{
    uint64_t kind = draw(load, 100);
    uint64_t pages = kind < 35   ? 1
                     : kind < 65 ? draw_between(load, 2, 4)
                     : kind < 85 ? draw_between(load, 5, 16)
                     : kind < 96 ? draw_between(load, 17, 40)
                                 : draw_between(load, 41, 120);
    uint64_t below = draw(load, 5) != 0 ? 0 : load->middle - 1 - draw(load, 8) * PAGE;

    return (struct request){(uint32_t)draw_between(load, 1, 6), pages, below};
}

static struct request draw_block(struct load *load)
{
    uint64_t kind = draw(load, 100);
    uint64_t size = kind < 50   ? draw_between(load, 1, 64)
                    : kind < 80 ? draw_between(load, 65, 300)
                    : kind < 93 ? draw_between(load, 301, 1200)
                    : kind < 99 ? draw_between(load, 1201, 4000)
                                : draw_between(load, 4001, 20000);
    uint64_t type = draw(load, 10);

    return (struct request){
        type < 6 ? RAFKUDIN_BOOT_SERVICES_DATA : (uint32_t)draw_between(load, 1, 6), size, 0};
}

void time_calls(struct load *load, const char *phase, const char *service, size_t count,
                one_call *call)
{
    uint64_t refused = 0;

    meter_start(load->meter);
    for (size_t number = 0; number < count; number++)
        refused += !call(load, number);
    meter_stop(load->meter, phase, service, count, refused);
}

static bool place_pages(struct load *load, size_t number)
{
    const struct request *request = &load->requests[number];
    struct held held = {request->below, request->size};
    uint32_t type = request->below != 0 ? RAFKUDIN_MAX_ADDRESS : RAFKUDIN_ANY_PAGES;

    if (RafkudinAllocatePages(load->core, type, request->type, request->size, &held.address) !=
        RAFKUDIN_SUCCESS)
        return false;
    load->held[load->count++] = held;
    return true;
}

static bool place_block(struct load *load, size_t number)
{
    const struct request *request = &load->requests[number];
    struct held held = {0, request->size};

    if (RafkudinAllocatePool(load->core, request->type, request->size, &held.address) !=
        RAFKUDIN_SUCCESS)
        return false;
    load->held[load->count++] = held;
    return true;
}

static bool free_pages(struct load *load, size_t number)
{
    return RafkudinFreePages(load->core, load->given[number].address, load->given[number].size) ==
           RAFKUDIN_SUCCESS;
}

static bool free_block(struct load *load, size_t number)
{
    return RafkudinFreePool(load->core, load->given[number].address) == RAFKUDIN_SUCCESS;
}

static bool refused_call(struct load *load, size_t number)
{
    (void)number;
    return RafkudinFreePages(load->core, 1, 1) == RAFKUDIN_SUCCESS;
}

/* A kind of memory: its two services. */
struct services {
    const char *placing;
    const char *freeing;
    struct request (*draw)(struct load *load);
    one_call *place;
    one_call *give;
};

static const struct services pages = {"AllocatePages", "FreePages", draw_pages, place_pages,
                                      free_pages};
static const struct services pool = {"AllocatePool", "FreePool", draw_block, place_block,
                                     free_block};

static void place(struct load *load, const struct services *services, const char *phase,
                  size_t count)
{
    for (size_t at = 0; at < count; at++)
        load->requests[at] = services->draw(load);
    time_calls(load, phase, services->placing, count, services->place);
}

/* Frees the given number of those held. */
static void give(struct load *load, const struct services *services, const char *phase,
                 size_t count)
{
    if (count > load->count)
        count = load->count;
    for (size_t at = 0; at < count; at++) {
        size_t chosen = draw(load, load->count);

        load->given[at] = load->held[chosen];
        load->held[chosen] = load->held[--load->count];
    }
    time_calls(load, phase, services->freeing, count, services->give);
}

/* Gets the memory map. */
static bool get_map(struct load *load, size_t number)
{
    uint64_t size = load->map_size, key, step;
    uint32_t version;

    (void)number;
    return RafkudinGetMemoryMap(load->core, &size, load->map, &key, &step, &version) ==
           RAFKUDIN_SUCCESS;
}

/* Gets the memory map some times, into a buffer of its size that was written before. */
static void get_maps(struct load *load, const char *phase)
{
    load->map_size = RafkudinDescriptors(load->core) * RAFKUDIN_DESCRIPTOR_SIZE;
    load->map = grow(load->map, load->map_size);
    memset(load->map, 0, load->map_size);
    time_calls(load, phase, "GetMemoryMap", MAPS, get_map);
}

size_t least_of(size_t one, size_t other)
{
    return one < other ? one : other;
}

/* Fills up to the given number of live ones, churns them, frees half, fills up again, and for a pool frees all.
 */
static void run_memory(struct load *load, const struct services *services, size_t live)
{
    size_t round = least_of(live / 4, MAX_ROUND);

    place(load, services, "fill", live);
    get_maps(load, "fill");
    for (int done = 0; done < ROUNDS; done++) {
        give(load, services, "churn", round);
        place(load, services, "churn", round);
    }
    get_maps(load, "churn");
    give(load, services, "thin", live / 2);
    get_maps(load, "thin");
    place(load, services, "refill", least_of(live / 2, MAX_REFILL));
    time_calls(load, "refused", "FreePages", REFUSED_CALLS, refused_call);
    if (services == &pool)
        give(load, services, "drain", load->count);
}

static void run_pages(struct load *load, size_t live)
{
    run_memory(load, &pages, live);
}

void place_blocks(struct load *load, const char *phase, size_t count)
{
    place(load, &pool, phase, count);
}

static void run_pool(struct load *load, size_t live)
{
    run_memory(load, &pool, live);
}

/* Requests of more pages than any free range has. */
static void run_crowded(struct load *load, size_t descriptors)
{
    (void)descriptors;
    for (size_t at = 0; at < VAIN_REQUESTS; at++)
        load->requests[at] =
            (struct request){(uint32_t)draw_between(load, 1, 6), CROWDED_PAGES + 1, 0};
    time_calls(load, "no place", "AllocatePages", VAIN_REQUESTS, place_pages);
    time_calls(load, "refused", "FreePages", REFUSED_CALLS, refused_call);
}

const struct rafkudin_guid *kind_of(const struct load *load, uint64_t handle)
{
    return &load->kinds[handle % KINDS];
}

uint64_t agent_of(uint64_t handle)
{
    return 1 + handle % AGENTS;
}

bool install_first(struct load *load, size_t number)
{
    uint64_t handle = 0;

    return RafkudinInstallProtocolInterface(load->core, &handle, kind_of(load, number + 1), 0,
                                            number + 1) == RAFKUDIN_SUCCESS &&
           handle == number + 1;
}

/* Installs another interface on a handle. */
static bool install_second(struct load *load, size_t number)
{
    uint64_t handle = 4 * (number + 1);

    return RafkudinInstallProtocolInterface(load->core, &handle, &load->kinds[KINDS], 0, handle) ==
           RAFKUDIN_SUCCESS;
}

bool open_by_driver(struct load *load, size_t number)
{
    uint64_t handle = number + 1, value;

    return RafkudinOpenProtocol(load->core, handle, kind_of(load, handle), &value,
                                agent_of(handle), handle, RAFKUDIN_BY_DRIVER) == RAFKUDIN_SUCCESS;
}

static bool close_by_driver(struct load *load, size_t number)
{
    uint64_t handle = number + 1;

    return RafkudinCloseProtocol(load->core, handle, kind_of(load, handle), agent_of(handle),
                                 handle) == RAFKUDIN_SUCCESS;
}

bool open_to_get(struct load *load, size_t number)
{
    uint64_t handle = load->handles[number], value;

    return RafkudinOpenProtocol(load->core, handle, kind_of(load, handle), &value,
                                agent_of(number), 0, RAFKUDIN_GET_PROTOCOL) == RAFKUDIN_SUCCESS;
}

static bool look_up_handle(struct load *load, size_t number)
{
    uint64_t handle = load->handles[number], value;

    return RafkudinHandleProtocol(load->core, handle, kind_of(load, handle), &value) ==
               RAFKUDIN_SUCCESS &&
           value == handle;
}

static bool look_up_kind(struct load *load, size_t number)
{
    uint64_t value;

    return RafkudinLocateProtocol(load->core, kind_of(load, load->handles[number]), 0, &value) ==
           RAFKUDIN_SUCCESS;
}

static bool search_kind(struct load *load, size_t number)
{
    static uint64_t found[RAFKUDIN_MAX_HANDLES];
    uint64_t size = sizeof found;

    return RafkudinLocateHandle(load->core, RAFKUDIN_BY_PROTOCOL, kind_of(load, number), 0, &size,
                                found) == RAFKUDIN_SUCCESS;
}

static bool search_all(struct load *load, size_t number)
{
    static uint64_t found[RAFKUDIN_MAX_HANDLES];
    uint64_t size = sizeof found;

    (void)number;
    return RafkudinLocateHandle(load->core, RAFKUDIN_ALL_HANDLES, NULL, 0, &size, found) ==
           RAFKUDIN_SUCCESS;
}

/* Takes the first interface of a handle out, which ends the handle if it has no second one. */
static bool take_out(struct load *load, size_t number)
{
    uint64_t handle = 2 * (number + 1);

    return RafkudinUninstallProtocolInterface(load->core, handle, kind_of(load, handle), handle) ==
           RAFKUDIN_SUCCESS;
}

void draw_handles(struct load *load, size_t handles)
{
    for (size_t at = 0; at < 2 * handles; at++)
        load->handles[at] = draw_between(load, 1, handles);
}

static void run_handles(struct load *load, size_t handles)
{
    draw_handles(load, handles);
    time_calls(load, "install", "InstallProtocolInterface", handles, install_first);
    time_calls(load, "second", "InstallProtocolInterface", handles / 4, install_second);
    time_calls(load, "open", "OpenProtocol", handles, open_by_driver);
    time_calls(load, "get", "OpenProtocol", 2 * handles, open_to_get);
    time_calls(load, "look up", "HandleProtocol", 2 * handles, look_up_handle);
    time_calls(load, "look up", "LocateProtocol", 2 * handles, look_up_kind);
    time_calls(load, "search", "LocateHandle", SEARCHES, search_kind);
    time_calls(load, "all", "LocateHandle", SEARCHES, search_all);
    time_calls(load, "refused", "FreePages", REFUSED_CALLS, refused_call);
    time_calls(load, "close", "CloseProtocol", handles, close_by_driver);
    time_calls(load, "take out", "UninstallProtocolInterface", handles / 2, take_out);
}

/* Registers for a kind. Keys count up from 1. */
static bool register_kind(struct load *load, size_t number)
{
    uint64_t key;

    return RafkudinRegisterProtocolNotify(load->core, kind_of(load, number), number, &key) ==
               RAFKUDIN_SUCCESS &&
           key == number + 1;
}

/* Takes the next handle of a key. */
static bool take_handle(struct load *load, size_t number)
{
    uint64_t found, size = sizeof found;

    return RafkudinLocateHandle(load->core, RAFKUDIN_BY_REGISTER_NOTIFY, NULL, number + 1, &size,
                                &found) == RAFKUDIN_SUCCESS;
}

/* Takes the next handle of a key, and returns the value of its interface. */
static bool take_value(struct load *load, size_t number)
{
    uint64_t value;

    return RafkudinLocateProtocol(load->core, kind_of(load, number), number + 1, &value) ==
           RAFKUDIN_SUCCESS;
}

static void run_keys(struct load *load, size_t keys)
{
    time_calls(load, "register", "RegisterProtocolNotify", keys, register_kind);
    time_calls(load, "install", "InstallProtocolInterface", KEYED_HANDLES, install_first);
    time_calls(load, "serve", "LocateHandle", keys, take_handle);
    time_calls(load, "serve", "LocateProtocol", keys, take_value);
}

/* The machine's driver: it needs an interface of a kind, and opens it. Where it needs another, or
 * makes a child, that is of a kind too. */
static void add_driver(struct machine *machine, const struct rafkudin_guid *kind,
                       const struct rafkudin_guid *other, const struct rafkudin_guid *child)
{
    struct rafkudin_driver driver = {0};

    driver.version = 1;
    driver.stops = true;
    driver.needs[0] = driver.opens[0] = *kind;
    driver.needs_count = driver.opens_count = 1;
    if (other != NULL)
        driver.needs[driver.needs_count++] = *other;
    if (child != NULL) {
        driver.children[0].interfaces[0].guid = *child;
        driver.children[0].count = 1;
        driver.children_count = 1;
    }
    machine->drivers[0] = driver;
    machine->driver_count = 1;
}

/* Adds a range of pages to a machine; the answer is the page behind it. */
static uint64_t add_range(struct machine *machine, uint32_t type, uint64_t first, uint64_t count)
{
    uint8_t *record;

    machine->records = grow(machine->records, machine->size + RAFKUDIN_DESCRIPTOR_SIZE);
    record = machine->records + machine->size;
    machine->size += RAFKUDIN_DESCRIPTOR_SIZE;
    memset(record, 0, RAFKUDIN_DESCRIPTOR_SIZE);
    put_number(record, 4, type);
    put_number(record + 8, 8, first * PAGE);
    put_number(record + 24, 8, count);
    put_number(record + 32, 8,
               type == RAFKUDIN_RUNTIME_SERVICES_DATA ? 0xf | RAFKUDIN_MEMORY_RUNTIME : 0xf);
    return first + count;
}

/* A machine for the given number of live allocations, its memory in five pieces; it returns the address
 * behind the low half. */
static uint64_t make_machine(struct machine *machine, size_t live)
{
    uint64_t half = live * 12 + 4096;
    uint64_t page, middle;

    add_range(machine, RAFKUDIN_CONVENTIONAL, 1, 159);
    add_range(machine, RAFKUDIN_CONVENTIONAL, 256, 1792);
    page = add_range(machine, RAFKUDIN_ACPI_MEMORY_NVS, 2048, 16);
    middle = page = add_range(machine, RAFKUDIN_CONVENTIONAL, page, half);
    page = add_range(machine, RAFKUDIN_RUNTIME_SERVICES_DATA, page, 16);
    page = add_range(machine, RAFKUDIN_ACPI_RECLAIM, page, 32);
    add_range(machine, RAFKUDIN_CONVENTIONAL, page + 1024, half);
    machine->granule = 1;
    machine->drivers = grow(NULL, sizeof *machine->drivers);
    return middle * PAGE;
}

/* A machine of the given number of ranges of a few pages, free ones and others in turn. */
static uint64_t make_crowded_machine(struct machine *machine, size_t descriptors)
{
    uint64_t page = 1;

    for (size_t at = 0; at < descriptors; at++)
        page = add_range(machine, at % 2 != 0 ? RAFKUDIN_CONVENTIONAL : RAFKUDIN_ACPI_RECLAIM, page,
                         CROWDED_PAGES);
    machine->granule = 1;
    machine->drivers = grow(NULL, sizeof *machine->drivers);
    return page * PAGE;
}

/* A machine of one range with room for a path of the given number of handles each. */
static uint64_t make_large_machine(struct machine *machine, size_t handles)
{
    uint64_t page = add_range(machine, RAFKUDIN_CONVENTIONAL, 1, (handles + 1) * PAGES_OF_PATH);

    machine->granule = 1;
    machine->drivers = grow(NULL, sizeof *machine->drivers);
    return page * PAGE;
}

/* The loads, the machine of each, and how often each is repeated. */
static const struct {
    const char *name;
    void (*run)(struct load *load, size_t live);
    uint64_t (*make)(struct machine *machine, size_t live);
    size_t live;
    int repetitions;
} loads[] = {
    {"pages-100", run_pages, make_machine, 100, 15},
    {"pages-1000", run_pages, make_machine, 1000, 9},
    {"pages-10000", run_pages, make_machine, 10000, 3},
    {"pages-100000", run_pages, make_machine, 100000, 1},
    {"pages-1000000", run_pages, make_machine, 1000000, 1},
    {"crowded-65536", run_crowded, make_crowded_machine, 65536, 5},
    {"pool-10000", run_pool, make_machine, 10000, 5},
    {"handles-64", run_handles, make_machine, 64, 15},
    {"handles-1024", run_handles, make_machine, 1024, 9},
    {"handles-4096", run_handles, make_machine, 4096, 5},
    {"drivers-64", run_drivers, make_machine, 64, 15},
    {"drivers-1024", run_drivers, make_machine, 1024, 9},
    {"drivers-4096", run_drivers, make_machine, 4096, 5},
    {"driven-4096", run_driven, make_machine, 4096, 3},
    {"children-64", run_children, make_machine, 64, 15},
    {"children-4096", run_children, make_machine, 4096, 5},
    {"full-4096", run_full, make_machine, 4096, 5},
    {"driver-children-64", run_driver_children, make_machine, 64, 15},
    {"driver-children-4096", run_driver_children, make_machine, 4096, 5},
    {"stopped-64", run_stopped, make_machine, 64, 15},
    {"stopped-4096", run_stopped, make_machine, 4096, 5},
    {"stopped-children-64", run_stopped_children, make_machine, 64, 15},
    {"stopped-children-4096", run_stopped_children, make_machine, 4096, 5},
    {"bindings-64", run_bindings, make_machine, 64, 15},
    {"bindings-4096", run_bindings, make_machine, 4096, 5},
    {"questions-64", run_questions, make_machine, 64, 15},
    {"questions-1024", run_questions, make_machine, 1024, 9},
    {"questions-4096", run_questions, make_machine, 4096, 5},
    {"keys-10000", run_keys, make_machine, 10000, 3},
    {"paths-4000", run_paths, make_large_machine, 4000, 1},
    {"vain-paths-4000", run_vain_paths, make_large_machine, 4000, 1},
    {"chain-4096", run_chain, make_machine, 4096, 3},
};

/* The kind that the driver of a load needs beside the one that it opens, if it needs one. */
static const struct rafkudin_guid *other_need(const struct load *load, size_t index)
{
    bool is_stopped = loads[index].run == run_stopped || loads[index].run == run_stopped_children;

    return is_stopped ? other_kind(load) : NULL;
}

/* The kind of the child that the driver of a load makes, if it makes one. In a chain the driver is
 * started on it. */
static const struct rafkudin_guid *child_kind(const struct load *load, size_t index)
{
    void (*run)(struct load *load, size_t live) = loads[index].run;

    if (run == run_chain)
        return &load->kinds[KINDS];
    if (run == run_driver_children)
        return &driver_binding;
    return run == run_children || run == run_full || run == run_stopped_children ? &load->kinds[0]
                                                                                 : NULL;
}

/* Runs a load the given number of times, or as often as it says, each time on a new core. */
static void repeat(struct meter *meter, size_t index, int repetitions, bool certify)
{
    static struct load load;
    size_t live = loads[index].live, room = live * 2 + MAX_REFILL;
    struct machine machine = {0};

    if (repetitions == 0)
        repetitions = loads[index].repetitions;
    load.meter = meter;
    load.middle = loads[index].make(&machine, live);
    load.held = grow(NULL, room * sizeof *load.held);
    load.requests = grow(NULL, room * sizeof *load.requests);
    load.given = grow(NULL, room * sizeof *load.given);
    for (size_t kind = 0; kind <= KINDS; kind++)
        put_number(load.kinds[kind].bytes, sizeof load.kinds[kind].bytes,
                   0x6b66615200000000 + kind);
    add_driver(&machine, &load.kinds[KINDS], other_need(&load, index), child_kind(&load, index));
    for (int done = 0; done < repetitions; done++) {
        load.drawn = 0x9e3779b97f4a7c15;
        load.count = 0;
        load.core = machine_core(&machine);
        RafkudinCertify(load.core, certify);
        meter_begin(meter);
        loads[index].run(&load, live);
        meter_end(meter);
        RafkudinFree(load.core);
    }
    machine_free(&machine);
    free(load.held);
    free(load.requests);
    free(load.given);
    free(load.map);
    load.map = NULL;
}

/* Runs the loads of a name, or all where there is none, and prints what their calls cost. */
static void run_loads(const char *name, int repetitions, bool certify)
{
    size_t ran = 0;

    for (size_t index = 0; index < sizeof loads / sizeof *loads; index++) {
        struct meter meter = {0};

        if (name != NULL && strcmp(name, loads[index].name) != 0)
            continue;
        repeat(&meter, index, repetitions, certify);
        printf("%s\n", loads[index].name);
        meter_print(&meter);
        ran++;
    }
    if (ran == 0)
        fail("there is no load %s", name);
}

/* Prints a number, rounded, with a comma before each three of its digits. */
static void print_number(double number)
{
    uint64_t whole = (uint64_t)(number + 0.5), part = 1;

    while (whole / part >= 1000)
        part *= 1000;
    printf("%" PRIu64, whole / part);
    while (part != 1) {
        part /= 1000;
        printf(",%03" PRIu64, whole / part % 1000);
    }
}

/* Prints the rows of what calls on pages cost at a number of live allocations. */
static void print_calls(const struct meter *meter, size_t live)
{
    static const char *const services[] = {"AllocatePages", "FreePages", "GetMemoryMap"};

    printf("| ");
    print_number((double)live);
    for (size_t at = 0; at < sizeof services / sizeof *services; at++) {
        printf("%s | %s%s | ", at == 0 ? "" : "|", services[at],
               at == 0 ? ", in a churn" : "");
        print_number(meter_least(meter, "churn", services[at]));
        printf(" |\n");
    }
    fflush(stdout);
}

/* Prints what calls on pages cost, by the number of live allocations up to the most. */
static void print_growth(int repetitions, size_t most)
{
    printf("| Live | Call | Library |\n|---|---|---|\n");
    for (size_t index = 0; index < sizeof loads / sizeof *loads; index++) {
        struct meter meter = {0};

        if (loads[index].run != run_pages || loads[index].live > most)
            continue;
        repeat(&meter, index, repetitions, false);
        print_calls(&meter, loads[index].live);
    }
}

/* Prints what a request costs that nothing can hold. */
static void print_vain(int repetitions)
{
    for (size_t index = 0; index < sizeof loads / sizeof *loads; index++) {
        if (loads[index].run != run_crowded)
            continue;
        printf("\n| Descriptors | A request that nothing can hold | Library |\n|---|---|---|\n");
        for (int certify = 0; certify < 2; certify++) {
            struct meter meter = {0};

            repeat(&meter, index, repetitions, certify != 0);
            printf("| ");
            print_number((double)loads[index].live);
            printf(" | %s certificates | ", certify != 0 ? "with" : "without");
            print_number(meter_least(&meter, "no place", "AllocatePages"));
            printf(" |\n");
        }
    }
}

int main(int count, char **words)
{
    int repetitions = 0, most = 0, at = 1;
    bool certify = false;

    fault_program = "measure";
    for (; at < count && strncmp(words[at], "--", 2) == 0; at++) {
        if (strcmp(words[at], "--certify") == 0)
            certify = true;
        else if (strcmp(words[at], "--growth") == 0 && at + 1 < count && atoi(words[at + 1]) > 0)
            most = atoi(words[++at]);
        else if (strcmp(words[at], "--reps") == 0 && at + 1 < count && atoi(words[at + 1]) > 0)
            repetitions = atoi(words[++at]);
        else
            fail("usage: measure [--reps COUNT] [--certify] [LOAD ..]\n"
                 "       measure [--reps COUNT] --growth MAX");
    }
    if (most != 0) {
        print_growth(repetitions, (size_t)most);
        print_vain(repetitions);
        return 0;
    }
    if (at == count)
        run_loads(NULL, repetitions, certify);
    for (; at < count; at++)
        run_loads(words[at], repetitions, certify);
    return 0;
}
