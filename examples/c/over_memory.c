/* Cores over memory that a caller hands over: a block of the pool is at its address. What is written
 * through the address is what the core reads, and the other way; two cores share nothing; pages go
 * back with their last block; and a core over memory replies as one without. */
#include "points.h"

#include <rafkudin.h>

#include <stdbool.h>
#include <stdint.h>
#include <stdio.h>
#include <stdlib.h>
#include <string.h>

/* What the library keeps of each page stays allocated for good. */
const char *__asan_default_options(void);
const char *__asan_default_options(void)
{
    return "detect_leaks=0";
}

#define PAGE 4096
#define PAGES 64
#define DATA RAFKUDIN_BOOT_SERVICES_DATA
#define MAX_BLOCKS 200
#define CALLS 20000

/* Memory, and the core of a machine whose conventional pages it is. */
struct machine {
    uint8_t *memory;
    uint64_t start;
    struct rafkudin *core;
};

static uint64_t make(uint8_t *memory, uint64_t start, uint64_t pages, struct rafkudin **core)
{
    uint64_t record[6] = {RAFKUDIN_CONVENTIONAL, start, 0, pages, 0xf, 0};
    struct rafkudin_memory handed = {memory, PAGES};

    return RafkudinMakeOver(handed, start / PAGE, (const uint8_t *)record, sizeof record,
                            sizeof record, 1, NULL, 0, core);
}

static struct machine machine_at(uint64_t start)
{
    struct machine machine = {aligned_alloc(PAGE, PAGES * PAGE), start, NULL};

    if (machine.memory == NULL)
        abort();
    /* With 0 the machine's addresses are those of the memory itself. */
    if (start == 0)
        machine.start = (uint64_t)(uintptr_t)machine.memory;
    memset(machine.memory, 0xa5, PAGES * PAGE);
    HOLDS(make(machine.memory, machine.start, PAGES, &machine.core) == RAFKUDIN_SUCCESS);
    return machine;
}

static void end(struct machine *machine)
{
    RafkudinFree(machine->core);
    free(machine->memory);
}

static uint8_t *at(const struct machine *machine, uint64_t address)
{
    return machine->memory + (address - machine->start);
}

static uint64_t block_of(const struct machine *machine, size_t size)
{
    uint64_t address = 0;

    HOLDS(RafkudinAllocatePool(machine->core, DATA, size, &address) == RAFKUDIN_SUCCESS);
    HOLDS(address >= machine->start + 8 && address + size <= machine->start + PAGES * PAGE);
    return address;
}

static bool is_filled(const uint8_t *bytes, uint8_t fill, size_t size)
{
    for (size_t i = 0; i < size; i++)
        if (bytes[i] != fill)
            return false;
    return true;
}

/* Writes a block through its address and by the core in turn, and reads it by the other. */
static void try_block(const struct machine *machine, size_t size)
{
    uint64_t address = block_of(machine, size);
    uint8_t *block = at(machine, address), *bytes = malloc(size);

    if (bytes == NULL)
        abort();
    HOLDS(is_filled(block, 0, size));
    for (size_t i = 0; i < size; i++)
        block[i] = (uint8_t)(i * 7 + 1);
    HOLDS(RafkudinPoolRead(machine->core, address, bytes, size) == RAFKUDIN_SUCCESS);
    HOLDS(memcmp(bytes, block, size) == 0);
    for (size_t i = 0; i < size; i++)
        bytes[i] = (uint8_t)(i * 5 + 3);
    HOLDS(RafkudinPoolWrite(machine->core, address, bytes, size) == RAFKUDIN_SUCCESS);
    HOLDS(memcmp(bytes, block, size) == 0);
    free(bytes);
    HOLDS(RafkudinFreePool(machine->core, address) == RAFKUDIN_SUCCESS);
}

static void try_blocks(const struct machine *machine)
{
    for (size_t size = 1; size <= PAGES * PAGE - 8; size = size * 3 + 1)
        try_block(machine, size);
    /* All pages but the header of the block. They go back each time, and are the same again. */
    for (int round = 0; round < 20; round++)
        try_block(machine, PAGES * PAGE - 8);
}

/* Blocks at the same addresses of two machines are two blocks. */
static void try_two(void)
{
    struct machine one = machine_at(0x100000), two = machine_at(0x100000);
    uint64_t first = block_of(&one, 1000), second = block_of(&two, 1000);

    HOLDS(first == second);
    memset(at(&one, first), 1, 1000);
    memset(at(&two, second), 2, 1000);
    for (size_t i = 0; i < 1000; i++) {
        uint8_t seen[2] = {0, 0};

        HOLDS(RafkudinPoolRead(one.core, first + i, &seen[0], 1) == RAFKUDIN_SUCCESS);
        HOLDS(RafkudinPoolRead(two.core, second + i, &seen[1], 1) == RAFKUDIN_SUCCESS);
        HOLDS(seen[0] == 1 && seen[1] == 2);
    }
    HOLDS(RafkudinFreePool(one.core, first) == RAFKUDIN_SUCCESS);
    HOLDS(*at(&two, second) == 2);
    end(&one);
    end(&two);
}

/* Pages that AllocatePages placed are the caller's: the core never touches them. */
static void try_pages(const struct machine *machine)
{
    uint64_t pages = 0, blocks[PAGES];
    size_t count = 0;

    HOLDS(RafkudinAllocatePages(machine->core, RAFKUDIN_ANY_PAGES, RAFKUDIN_LOADER_DATA, PAGES / 2,
                                &pages) == RAFKUDIN_SUCCESS);
    memset(at(machine, pages), 0x77, PAGES / 2 * PAGE);
    while (count < PAGES && RafkudinAllocatePool(machine->core, DATA, PAGE - 8, &blocks[count]) ==
                                RAFKUDIN_SUCCESS)
        count++;
    HOLDS(count == PAGES / 2);
    for (size_t i = 0; i < count; i++)
        HOLDS(RafkudinFreePool(machine->core, blocks[i]) == RAFKUDIN_SUCCESS);
    HOLDS(is_filled(at(machine, pages), 0x77, PAGES / 2 * PAGE));
    HOLDS(RafkudinFreePages(machine->core, pages, PAGES / 2) == RAFKUDIN_SUCCESS);
    try_block(machine, PAGES * PAGE - 8);
}

/* A machine with more pages than there is memory: those behind it, or before it, are refused to the
 * pool alone, and nothing changes. */
static void try_beyond(void)
{
    struct machine machine = machine_at(0x100000);
    struct rafkudin *core = NULL;
    uint64_t address = 0, pages = 0;
    size_t entries;

    RafkudinFree(machine.core);
    HOLDS(make(machine.memory, machine.start, PAGES + 1, &core) == RAFKUDIN_SUCCESS);
    machine.core = core;
    entries = RafkudinDescriptors(core);
    HOLDS(RafkudinAllocatePool(core, DATA, 24, &address) == RAFKUDIN_OUT_OF_RESOURCES);
    HOLDS(address == 0 && RafkudinDescriptors(core) == entries);
    HOLDS(RafkudinAllocatePages(core, RAFKUDIN_ANY_PAGES, RAFKUDIN_LOADER_DATA, 1, &pages) ==
          RAFKUDIN_SUCCESS);
    HOLDS(pages == machine.start + PAGES * PAGE);
    try_block(&machine, PAGE - 8);
    end(&machine);
}

static void try_misuse(void)
{
    static uint8_t memory[PAGE];
    uint64_t record[6] = {RAFKUDIN_CONVENTIONAL, 0x1000, 0, 1, 0xf, 0};
    struct rafkudin_memory none = {NULL, 1}, large = {memory, (size_t)1 << 51}, one = {memory, 1};
    const uint8_t *bytes = (const uint8_t *)record;
    struct rafkudin *core = NULL;

    HOLDS(RafkudinMakeOver(none, 1, bytes, 48, 48, 1, NULL, 0, &core) ==
          RAFKUDIN_INVALID_PARAMETER);
    HOLDS(RafkudinMakeOver(large, 1, bytes, 48, 48, 1, NULL, 0, &core) ==
          RAFKUDIN_INVALID_PARAMETER);
    HOLDS(RafkudinMakeOver(one, 1, bytes, 48, 48, 1, NULL, 0, NULL) == RAFKUDIN_INVALID_PARAMETER);
    HOLDS(RafkudinMakeOver(one, 1, NULL, 48, 48, 1, NULL, 0, &core) == RAFKUDIN_INVALID_PARAMETER);
    HOLDS(RafkudinMakeOver(one, 1, bytes, 48, 48, 1, NULL, 1, &core) == RAFKUDIN_INVALID_PARAMETER);
    HOLDS(RafkudinMakeOver(one, 1, bytes, 48, 48, 2, NULL, 0, &core) == RAFKUDIN_INVALID_PARAMETER);
    HOLDS(core == NULL);
    HOLDS(RafkudinMakeOver(one, 1, NULL, 0, 48, 1, NULL, 0, &core) == RAFKUDIN_SUCCESS);
    RafkudinFree(core);
}

/* ---- Drawn calls on a core over memory and on one without ---- */

static uint64_t drawn;

static uint64_t draw(uint64_t below)
{
    drawn = drawn * 6364136223846793005 + 1442695040888963407;
    return (drawn >> 33) % below;
}

/* A block, and the byte that it is filled with. */
struct block {
    uint64_t address;
    uint32_t size;
    uint8_t fill;
};

static void take_block(const struct machine *machine, struct rafkudin *other, struct block *blocks,
                       size_t *count)
{
    uint64_t address = 0, same = 0;
    uint32_t size = (uint32_t)draw(draw(8) == 0 ? 20000 : 300), type = DATA + (uint32_t)draw(2) * 2;
    uint64_t status = RafkudinAllocatePool(machine->core, type, size, &address);

    HOLDS(RafkudinAllocatePool(other, type, size, &same) == status && address == same);
    if (status != RAFKUDIN_SUCCESS)
        return;
    blocks[*count] = (struct block){address, size, (uint8_t)(1 + draw(255))};
    memset(at(machine, address), blocks[*count].fill, size);
    ++*count;
}

static void free_block(const struct machine *machine, struct rafkudin *other, struct block *blocks,
                       size_t *count)
{
    size_t gone = draw(*count);

    HOLDS(is_filled(at(machine, blocks[gone].address), blocks[gone].fill, blocks[gone].size));
    HOLDS(RafkudinFreePool(machine->core, blocks[gone].address) == RAFKUDIN_SUCCESS);
    HOLDS(RafkudinFreePool(other, blocks[gone].address) == RAFKUDIN_SUCCESS);
    blocks[gone] = blocks[--*count];
}

static void try_drawn(void)
{
    static struct block blocks[MAX_BLOCKS];
    struct machine machine = machine_at(0x100000);
    uint64_t record[6] = {RAFKUDIN_CONVENTIONAL, machine.start, 0, PAGES, 0xf, 0};
    struct rafkudin *other = NULL;
    size_t count = 0;

    HOLDS(RafkudinMake((const uint8_t *)record, sizeof record, sizeof record, 1, NULL, 0, &other) ==
          RAFKUDIN_SUCCESS);
    for (int call = 0; call < CALLS; call++) {
        if (count < MAX_BLOCKS && (count == 0 || draw(2) == 0))
            take_block(&machine, other, blocks, &count);
        else
            free_block(&machine, other, blocks, &count);
        HOLDS(RafkudinDescriptors(machine.core) == RafkudinDescriptors(other));
    }
    while (count > 0)
        free_block(&machine, other, blocks, &count);
    try_block(&machine, PAGES * PAGE - 8);
    RafkudinFree(other);
    end(&machine);
}

int main(void)
{
    struct machine here = machine_at(0), elsewhere = machine_at(0x100000);

    try_blocks(&here);
    try_pages(&here);
    end(&here);
    try_blocks(&elsewhere);
    try_pages(&elsewhere);
    /* The memory once more, by another core. */
    RafkudinFree(elsewhere.core);
    HOLDS(make(elsewhere.memory, elsewhere.start, PAGES, &elsewhere.core) == RAFKUDIN_SUCCESS);
    try_blocks(&elsewhere);
    end(&elsewhere);
    try_two();
    try_beyond();
    try_misuse();
    try_drawn();
    return points_end("over_memory");
}
