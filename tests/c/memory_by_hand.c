/* Pages and blocks by values that are worked out by hand: requests that take much memory and are
 * served, as all pages at once and the most descriptors; and which pages of a memory that is handed
 * over a block of the pool takes. Each point that does not hold is printed on standard error, and
 * then the status is 1. */
#include "fault.h"
#include "machine.h"
#include "points.h"
#include "small_core.h"

#include <stdlib.h>
#include <string.h>

#define SUCCESS RAFKUDIN_SUCCESS

/* ---- Requests that take much memory ---- */

/* Requests on all pages: each the kind, the type, the pages and the memory, and where they are
 * placed. */
static const struct {
    uint32_t kind, type;
    uint64_t pages, memory, address;
} requests[] = {
    {0, 4, 0x100000, 0, 0xffffffff00000000},
    {0, 6, 0x100000000, 0, 0xfffff00000000000},
    {0, 4, PAGE_COUNT, 0, 0},
    {0, 0x80000000, 1, 0, 0xfffffffffffff000},
    {0, 0xffffffff, 0x100001, 0, 0xfffffffefffff000},
    {1, 4, 0x100000, 0xffffffff, 0},
    {1, 5, 0x200000, 0x3ffffffff, 0},
    {1, 0x80000001, 4097, 0x7fffffff, 0},
    {2, 4, 4097, 0x1000, 0x1000},
    {2, 6, 0x100000, 0x100000, 0x100000},
    {2, 0x80000000, 8192, 0xffff0000, 0xffff0000},
    {2, 0xffffffff, PAGE_COUNT, 0, 0},
};

static void try_many_pages(void)
{
    struct rafkudin *core = core_of_pages(0, PAGE_COUNT, NULL, 0);

    for (size_t certifies = 0; certifies < 2; certifies++) {
        RafkudinCertify(core, certifies);
        for (size_t row = 0; row < COUNT(requests); row++) {
            uint64_t memory = requests[row].memory;

            HOLDS(RafkudinAllocatePages(core, requests[row].kind, requests[row].type,
                                        requests[row].pages, &memory) == SUCCESS);
            HOLDS(memory == requests[row].address);
            HOLDS(RafkudinFreePages(core, memory, requests[row].pages) == SUCCESS);
            HOLDS(RafkudinDescriptors(core) == 1);
        }
    }
    RafkudinFree(core);
}

/* How many descriptors a machine may have. */
#define MOST_DESCRIPTORS 65536U

/* Each other page is free, and a placement takes one: the map is as long as before, and its bytes are
 * those of its entries. */
static void try_many_descriptors(void)
{
    size_t size = MOST_DESCRIPTORS * RAFKUDIN_DESCRIPTOR_SIZE;
    uint8_t *records = grow(NULL, size), *map = grow(NULL, size);
    uint64_t memory = 0, map_size = size, key = 0;
    struct rafkudin *core = NULL;

    for (uint64_t at = 0; at < MOST_DESCRIPTORS; at++)
        put_record(records + at * RAFKUDIN_DESCRIPTOR_SIZE, RAFKUDIN_CONVENTIONAL, 2 * at, 1, 0xf);
    HOLDS(RafkudinMake(records, size, RAFKUDIN_DESCRIPTOR_SIZE, 1, NULL, 0, &core) == SUCCESS);
    HOLDS(RafkudinAllocatePages(core, 0, 4, 1, &memory) == SUCCESS && memory == 0x1fffe000);
    HOLDS(RafkudinGetMemoryMap(core, &map_size, map, &key, NULL, NULL) == SUCCESS);
    HOLDS(map_size == size && RafkudinDescriptors(core) == MOST_DESCRIPTORS);
    put_record(records + size - RAFKUDIN_DESCRIPTOR_SIZE, 4, 2 * (MOST_DESCRIPTORS - 1), 1, 0xf);
    HOLDS(memcmp(map, records, size) == 0);
    for (size_t at = 0; at < MOST_DESCRIPTORS; at++) {
        struct rafkudin_descriptor entry, read = descriptor_at(map + at * RAFKUDIN_DESCRIPTOR_SIZE);

        HOLDS(RafkudinDescriptor(core, at, &entry) == SUCCESS && entry.type == read.type);
        HOLDS(entry.physical_start == read.physical_start && read.physical_start == 8192 * at);
        HOLDS(entry.number_of_pages == 1 && read.number_of_pages == 1);
        HOLDS(entry.attribute == 0xf && read.attribute == 0xf);
    }
    RafkudinFree(core);
    free(records);
    free(map);
}

/* ---- A memory that is handed over ---- */

/* What is done on a machine, whose last page is 2,047: a block is asked for, or freed, or a page of
 * the memory is looked at: whether it is as it was before the first call. */
enum kind { POOL, FREE, UNTOUCHED };

struct step {
    enum kind kind;
    uint64_t number; /* the size, the address or the page */
    uint64_t answer; /* the address, or a status */
};

#define OUT RAFKUDIN_OUT_OF_RESOURCES

/* The machine's last pages are those of the memory, up to page 2,047. */
static const struct step last_pages[] = {
    {UNTOUCHED, 2047, true},
    {POOL, 24, 0x7ff008},
    {UNTOUCHED, 2047, false},
    {UNTOUCHED, 2046, true},
    {POOL, 4088, 0x7fe008},
    {UNTOUCHED, 2046, false},
    {UNTOUCHED, 2045, true},
    /* Three pages, and eleven. */
    {POOL, 12280, 0x7fb008},
    {UNTOUCHED, 2042, true},
    {UNTOUCHED, 2043, false},
    {POOL, 45048, 0x7f0008},
    {UNTOUCHED, 2032, false},
    /* The page below is not among them. */
    {POOL, 4088, OUT},
    {POOL, 24, 0x7ff028},
    {FREE, 0x7fe008, SUCCESS},
    {POOL, 4088, 0x7fe008},
    {FREE, 0x7ff008, SUCCESS},
    {FREE, 0x7ff028, SUCCESS},
    {POOL, 4088, 0x7ff008},
    {POOL, 24, OUT},
};

/* All but the machine's last page. */
static const struct step last_is_behind[] = {
    {POOL, 24, OUT},
    {POOL, 4089, OUT},
    {UNTOUCHED, 2046, true},
};

#define PAGES 16U
#define UNUSED 0xa5

/* Asks for a block, which is at its address of the memory: its bytes there are 0, and are those that
 * the core writes and reads. */
static void take(struct rafkudin *core, uint8_t *at_zero, const struct step *step)
{
    uint8_t *bytes = grow(NULL, step->number), *block;
    bool is_zero = true;
    uint64_t address = 0;

    if (step->answer == OUT) {
        HOLDS(RafkudinAllocatePool(core, 4, step->number, &address) == OUT && address == 0);
        free(bytes);
        return;
    }
    HOLDS(RafkudinAllocatePool(core, 4, step->number, &address) == SUCCESS);
    HOLDS(address == step->answer);
    block = at_zero + address;
    for (size_t at = 0; at < step->number; at++) {
        is_zero = is_zero && block[at] == 0;
        bytes[at] = (uint8_t)(at * 7 + 1);
    }
    HOLDS(is_zero);
    HOLDS(RafkudinPoolWrite(core, address, bytes, step->number) == SUCCESS);
    HOLDS(memcmp(block, bytes, step->number) == 0);
    memset(block, 0x33, step->number);
    HOLDS(RafkudinPoolRead(core, address, bytes, step->number) == SUCCESS);
    HOLDS(memcmp(block, bytes, step->number) == 0);
    free(bytes);
}

static bool is_untouched(const uint8_t *page)
{
    for (size_t at = 0; at < PAGE_SIZE; at++)
        if (page[at] != UNUSED)
            return false;
    return true;
}

/* Makes the steps on a machine, some of whose pages from one on are those of a memory. */
static void try_steps(uint64_t first, const struct step *steps, size_t count)
{
    static uint8_t room[(PAGES + 1) * PAGE_SIZE], records[4 * RAFKUDIN_DESCRIPTOR_SIZE];
    uint8_t *start = room + (PAGE_SIZE - (uintptr_t)room % PAGE_SIZE) % PAGE_SIZE;
    struct rafkudin_memory memory = {start, PAGES};
    struct rafkudin *core = NULL;

    memset(room, UNUSED, sizeof room);
    put_record(records, 7, 0, 160, 0xf);
    put_record(records + 48, 7, 256, 768, 0xf);
    put_record(records + 96, 6, 1024, 16, 0x800000000000000f);
    put_record(records + 144, 7, 1040, 1008, 0xf);
    HOLDS(RafkudinMakeOver(memory, first, records, sizeof records, 48, 1, NULL, 0, &core) ==
          SUCCESS);
    for (size_t at = 0; at < count; at++) {
        if (steps[at].kind == POOL)
            take(core, start - first * PAGE_SIZE, &steps[at]);
        else if (steps[at].kind == FREE)
            HOLDS(RafkudinFreePool(core, steps[at].number) == steps[at].answer);
        else
            HOLDS(is_untouched(start + (steps[at].number - first) * PAGE_SIZE) ==
                  (steps[at].answer != 0));
    }
    RafkudinFree(core);
}

int main(void)
{
    try_many_pages();
    try_many_descriptors();
    try_steps(2032, last_pages, COUNT(last_pages));
    try_steps(2031, last_is_behind, COUNT(last_is_behind));
    return points_end("memory_by_hand");
}
