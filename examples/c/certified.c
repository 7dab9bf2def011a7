/* Compares a core that makes a certificate for each placement with one that makes none, whose
 * search passes over what cannot hold the best place:
 *
 *     certified CALLS            that many drawn calls, on drawn machines
 *     certified MACHINE TRACE    the calls of a trace, on a machine file
 *
 * All replies must be equal, and every 500 calls the memory maps and their keys. A call that
 * differs is printed on standard error, and then the status is 1. */
#include "calls.h"
#include "fault.h"
#include "machine.h"
#include "points.h"
#include "replies.h"

#include <inttypes.h>
#include <stdlib.h>
#include <string.h>

#define PAGE 4096

/* How many calls a drawn machine serves, the most ranges that it has, and the most pages and blocks
 * that are held there. */
#define MACHINE_CALLS 10000U
#define MAX_RANGES 200U
#define MAX_HELD 1000U

/* After how many calls the memory maps are compared. */
#define BETWEEN_MAPS 500U

/* The two cores: first the one that makes certificates. */
#define CORES 2

/* What is held: pages, or a block of the pool, which has none. */
struct held {
    uint64_t address;
    uint64_t pages;
};

/* What calls have come to, of a machine or in all. */
struct counts {
    uint64_t calls;
    uint64_t placed; /* placements that succeeded */
    uint64_t full;   /* placements for which there was no place */
    uint64_t most;   /* the most entries of a map */
};

/* Two cores of one machine, and what is held on both. */
struct pair {
    struct rafkudin *cores[CORES];
    uint64_t end; /* the address behind the machine's memory */
    struct held held[MAX_HELD];
    size_t count;
    struct counts counts;
};

static uint64_t drawn = 0x9e3779b97f4a7c15;

static uint64_t draw(uint64_t below)
{
    drawn ^= drawn << 13;
    drawn ^= drawn >> 7;
    drawn ^= drawn << 17;
    return (drawn >> 11) % below;
}

/* A number from 1 up to 4, 24 or, seldom, 400. */
static uint64_t draw_pages(void)
{
    uint64_t kind = draw(20);

    return 1 + draw(kind < 12 ? 4 : kind < 19 ? 24 : 400);
}

/* A type that may be asked for. Of 4 and the last two each differs from the next by a multiple of
 * 64. */
static uint32_t draw_type(void)
{
    static const uint32_t types[] = {4,  4, 4, 4, 3, 3, 6, 6,          5,         5,
                                     10, 0, 9, 1, 2, 2, 8, 0x80000004, 0x70000004};

    return types[draw(sizeof types / sizeof *types)];
}

/* ---- Both cores ---- */

static struct pair *pair_of(const struct machine *machine)
{
    struct pair *pair = grow(NULL, sizeof *pair);

    memset(pair, 0, sizeof *pair);
    for (size_t at = 0; at < CORES; at++) {
        pair->cores[at] = machine_core(machine);
        RafkudinCertify(pair->cores[at], at == 0);
        RafkudinRecord(pair->cores[at], true);
    }
    return pair;
}

static void free_pair(struct pair *pair)
{
    for (size_t at = 0; at < CORES; at++)
        RafkudinFree(pair->cores[at]);
    free(pair);
}

/* The memory map of a core with its key behind it; the answer is how many bytes both have, 0 once
 * boot services have ended. */
static uint64_t map_of(struct rafkudin *core, uint8_t **map)
{
    uint64_t size = RafkudinDescriptors(core) * RAFKUDIN_DESCRIPTOR_SIZE, key = 0, status;

    *map = grow(NULL, size + sizeof key);
    status = RafkudinGetMemoryMap(core, &size, *map, &key, NULL, NULL);
    HOLDS(status == RAFKUDIN_SUCCESS || status == RAFKUDIN_UNSUPPORTED);
    if (status != RAFKUDIN_SUCCESS)
        return 0;
    memcpy(*map + size, &key, sizeof key);
    return size + sizeof key;
}

static void compare_maps(struct pair *pair)
{
    uint8_t *maps[CORES];
    uint64_t sizes[CORES];

    for (size_t at = 0; at < CORES; at++)
        sizes[at] = map_of(pair->cores[at], &maps[at]);
    HOLDS(sizes[0] == sizes[1] && memcmp(maps[0], maps[1], sizes[0]) == 0);
    for (size_t at = 0; at < CORES; at++)
        free(maps[at]);
}

/* Notes a call that both have served, and compares what they have. */
static void end_call(struct pair *pair)
{
    size_t entries = RafkudinDescriptors(pair->cores[0]);

    HOLDS(RafkudinDescriptors(pair->cores[1]) == entries);
    if (entries > pair->counts.most)
        pair->counts.most = entries;
    if (++pair->counts.calls % BETWEEN_MAPS == 0)
        compare_maps(pair);
}

/* Holds what a placement has answered, where it succeeded. */
static void end_placement(struct pair *pair, const uint64_t status[CORES],
                          const uint64_t address[CORES], uint64_t pages)
{
    HOLDS(status[0] == status[1]);
    HOLDS(address[0] == address[1]);
    pair->counts.placed += status[0] == RAFKUDIN_SUCCESS;
    pair->counts.full += status[0] != RAFKUDIN_SUCCESS;
    if (status[0] == RAFKUDIN_SUCCESS)
        pair->held[pair->count++] = (struct held){address[0], pages};
}

static void place_pages(struct pair *pair)
{
    uint64_t kind = draw(10), limit = draw(pair->end) | (PAGE - 1), page = limit - limit % PAGE;
    uint32_t way = kind < 7   ? RAFKUDIN_ANY_PAGES
                   : kind < 9 ? RAFKUDIN_MAX_ADDRESS
                              : RAFKUDIN_AT_ADDRESS;
    uint64_t pages = draw_pages(), status[CORES], address[CORES];
    uint32_t type = draw_type();

    for (size_t at = 0; at < CORES; at++) {
        address[at] = way == RAFKUDIN_AT_ADDRESS ? page : limit;
        status[at] = RafkudinAllocatePages(pair->cores[at], way, type, pages, &address[at]);
    }
    end_placement(pair, status, address, pages);
}

static void place_block(struct pair *pair)
{
    uint64_t size = 1 + draw(draw(8) != 0 ? 600 : 20000), status[CORES], address[CORES] = {0};
    uint32_t type = draw_type();

    for (size_t at = 0; at < CORES; at++)
        status[at] = RafkudinAllocatePool(pair->cores[at], type, size, &address[at]);
    end_placement(pair, status, address, 0);
}

/* Frees what is held at an index, of pages seldom a part alone, which is then not held any more. */
static void give(struct pair *pair, size_t chosen)
{
    struct held held = pair->held[chosen];
    uint64_t status[CORES], skipped = 0;

    pair->held[chosen] = pair->held[--pair->count];
    if (held.pages > 1 && draw(8) == 0) {
        skipped = draw(held.pages);
        held.pages -= skipped;
    }
    for (size_t at = 0; at < CORES; at++)
        status[at] = held.pages == 0
                         ? RafkudinFreePool(pair->cores[at], held.address)
                         : RafkudinFreePages(pair->cores[at], held.address + skipped * PAGE,
                                             held.pages);
    HOLDS(status[0] == status[1]);
}

/* ---- Drawn machines ---- */

static void add_range(struct machine *machine, uint32_t type, uint64_t first, uint64_t pages,
                      uint64_t attributes)
{
    uint8_t *record = machine->records + machine->size;

    memset(record, 0, RAFKUDIN_DESCRIPTOR_SIZE);
    put_number(record, 4, type);
    put_number(record + 8, 8, first * PAGE);
    put_number(record + 24, 8, pages);
    put_number(record + 32, 8, attributes);
    machine->size += RAFKUDIN_DESCRIPTOR_SIZE;
}

/* The attributes of a range: memory is of one of two kinds, or of specific purpose. */
static uint64_t draw_attributes(uint32_t type)
{
    bool is_runtime =
        type == RAFKUDIN_RUNTIME_SERVICES_CODE || type == RAFKUDIN_RUNTIME_SERVICES_DATA;
    uint64_t runtime = is_runtime ? RAFKUDIN_MEMORY_RUNTIME : 0;

    switch (draw(8)) {
    case 0:
        return runtime | 0x7;
    case 1:
        return runtime | RAFKUDIN_MEMORY_SP | 0xf;
    default:
        return runtime | 0xf;
    }
}

/* A machine of drawn ranges, which touch or do not; the answer is the address behind them. */
static uint64_t draw_machine(struct machine *machine)
{
    uint64_t ranges = 1 + draw(MAX_RANGES), page = 1;

    memset(machine, 0, sizeof *machine);
    machine->records = grow(NULL, ranges * RAFKUDIN_DESCRIPTOR_SIZE);
    machine->drivers = grow(NULL, sizeof *machine->drivers);
    machine->granule = draw(3) == 0 ? 16 : 1;
    for (uint64_t at = 0; at < ranges; at++) {
        uint32_t type = draw(3) != 0 ? RAFKUDIN_CONVENTIONAL : draw_type();
        uint64_t pages = 1 + draw(draw(8) == 0 ? 40000 : 200);

        page += draw(2) * draw(40);
        add_range(machine, type, page, pages, draw_attributes(type));
        page += pages;
    }
    return page * PAGE;
}

/* Makes drawn calls on a drawn machine, by which up to a drawn number are held at a time. */
static void run_calls(uint64_t calls, struct counts *all)
{
    struct machine machine;
    uint64_t end = draw_machine(&machine), most = 1 + draw(MAX_HELD);
    struct pair *pair = pair_of(&machine);

    pair->end = end;
    for (uint64_t at = 0; at < calls; at++) {
        if (draw(5000) == 0)
            most = 1 + draw(MAX_HELD);
        if (pair->count >= most || (pair->count != 0 && draw(16) < 7))
            give(pair, draw(pair->count));
        else if (draw(4) == 0)
            place_block(pair);
        else
            place_pages(pair);
        end_call(pair);
    }
    while (pair->count != 0)
        give(pair, pair->count - 1);
    compare_maps(pair);
    all->calls += pair->counts.calls;
    all->placed += pair->counts.placed;
    all->full += pair->counts.full;
    if (pair->counts.most > all->most)
        all->most = pair->counts.most;
    free_pair(pair);
    machine_free(&machine);
}

static void try_drawn(uint64_t calls)
{
    struct counts all = {0};

    while (all.calls < calls)
        run_calls(calls - all.calls < MACHINE_CALLS ? calls - all.calls : MACHINE_CALLS, &all);
    printf("certified: %" PRIu64 " calls, %" PRIu64 " placements, %" PRIu64
           " without a place, maps of up to %" PRIu64 " entries\n",
           all.calls, all.placed, all.full, all.most);
}

/* ---- Traces ---- */

static FILE *open_file(const char *path, const char *what)
{
    FILE *file = fopen(path, "rb");

    if (file == NULL)
        fail("cannot read %s", what);
    return file;
}

/* Makes a call on both cores, and compares what is printed of it. */
static void run_both(struct pair *pair, struct run runs[CORES], const struct call *call,
                     uint64_t number)
{
    for (size_t at = 0; at < CORES; at++) {
        runs[at].text.length = 0;
        run_call(&runs[at], call, number);
    }
    HOLDS(runs[0].text.length == runs[1].text.length &&
          memcmp(runs[0].text.bytes, runs[1].text.bytes, runs[0].text.length) == 0);
    end_call(pair);
}

static void try_trace(const char *machine_path, const char *trace_path)
{
    static struct line line;
    FILE *machine_file = open_file(machine_path, "machine");
    FILE *trace = open_file(trace_path, "trace");
    struct machine machine = machine_read(machine_file);
    struct pair *pair = pair_of(&machine);
    struct run runs[CORES] = {{.core = pair->cores[0], .hides_certificates = true},
                              {.core = pair->cores[1]}};
    struct call call;

    for (uint64_t number = 1; line_read(&line, trace); number++)
        if (call_read(&call, &line, number))
            run_both(pair, runs, &call, number);
    printf("certified: %" PRIu64 " calls of a trace, maps of up to %" PRIu64 " entries\n",
           pair->counts.calls, pair->counts.most);
    HOLDS(pair->counts.calls != 0);
    for (size_t at = 0; at < CORES; at++)
        text_free(&runs[at].text);
    free_pair(pair);
    machine_free(&machine);
    fclose(trace);
    fclose(machine_file);
}

int main(int count, char **words)
{
    fault_program = "certified";
    if (count == 2 && atoll(words[1]) > 0)
        try_drawn((uint64_t)atoll(words[1]));
    else if (count == 3)
        try_trace(words[1], words[2]);
    else
        fail("usage: certified CALLS | certified MACHINE TRACE");
    return points_end("certified");
}
