/* Drawn calls of the pool, each judged by a plain map of blocks:
 *
 *     drawn_pool MACHINE ..
 *
 * On each machine blocks are taken and given back; extents are rows of cells of 32 bytes, of which a
 * block goes into the lowest that fits in an extent of its type, the lowest first, or else into a
 * new extent. Then blocks in one extent alone, of 1, 4 and 4,096 pages, which is all the memory that
 * there is. Each point that does not hold is printed on standard error, and then the status is
 * 1. */
#include "draws.h"
#include "fault.h"
#include "machine.h"
#include "points.h"
#include "small_core.h"

#include <stdlib.h>
#include <string.h>

#define CELL 32U
#define PAGE_CELLS (PAGE_SIZE / CELL)
#define CALLS 20000U

/* An extent: its first address, its type, and which of its cells are taken. */
struct extent {
    uint64_t start;
    uint32_t type;
    size_t cells;
    bool *taken;
};

/* A live block, all of whose bytes are this one. */
struct block {
    uint64_t address, size;
    uint8_t fill;
};

/* A core with its extents and blocks. */
struct pool {
    struct rafkudin *core;
    struct extent extents[CALLS];
    struct block blocks[CALLS];
    size_t extent_count, block_count;
};

/* The cells of a block with its header. */
static size_t cells_of(uint64_t size)
{
    return (size + 39) / CELL;
}

static uint64_t address_of(const struct extent *extent, size_t cell)
{
    return extent->start + cell * CELL + 8;
}

/* The lowest free cells in a row, as many as given; the number of cells where there are none. */
static size_t fit(const struct extent *extent, size_t need)
{
    size_t free_cells = 0;

    for (size_t cell = 0; cell < extent->cells; cell++) {
        free_cells = extent->taken[cell] ? 0 : free_cells + 1;
        if (free_cells == need)
            return cell + 1 - need;
    }
    return extent->cells;
}

/* Where a block goes if an extent of its type has room: the lowest such extent and its lowest place;
 * 0 where there is none. */
static uint64_t first_fit(const struct pool *pool, uint32_t type, uint64_t size)
{
    uint64_t lowest = 0;

    for (size_t at = 0; at < pool->extent_count; at++) {
        const struct extent *extent = &pool->extents[at];
        size_t cell = extent->type == type ? fit(extent, cells_of(size)) : extent->cells;

        if (cell < extent->cells && (lowest == 0 || address_of(extent, cell) < lowest))
            lowest = address_of(extent, cell);
    }
    return lowest;
}

/* Marks the cells of a block, and forgets an extent that has none then. */
static void mark(struct pool *pool, const struct block *block, bool is_taken)
{
    for (size_t at = 0; at < pool->extent_count; at++) {
        struct extent *extent = &pool->extents[at];

        if (block->address < extent->start || block->address >= address_of(extent, extent->cells))
            continue;
        memset(extent->taken + (block->address - extent->start) / CELL, is_taken,
               cells_of(block->size));
        if (memchr(extent->taken, 1, extent->cells) == NULL) {
            free(extent->taken);
            *extent = pool->extents[--pool->extent_count];
        }
        return;
    }
    HOLDS(!"a block in no extent");
}

/* Whether each byte of a block is this one, and the block ends behind them. */
static bool is_filled(struct rafkudin *core, const struct block *block, uint8_t fill)
{
    uint8_t *bytes = grow(NULL, block->size + 1);
    bool is_filled = RafkudinPoolRead(core, block->address, bytes, block->size) == RAFKUDIN_SUCCESS;

    for (uint64_t at = 0; at < block->size; at++)
        is_filled = is_filled && bytes[at] == fill;
    if (RafkudinPoolRead(core, block->address, bytes, block->size + 1) == RAFKUDIN_SUCCESS)
        is_filled = false;
    free(bytes);
    return is_filled;
}

static void fill(struct rafkudin *core, const struct block *block)
{
    uint8_t *bytes = grow(NULL, block->size);

    memset(bytes, block->fill, block->size);
    HOLDS(RafkudinPoolWrite(core, block->address, bytes, block->size) == RAFKUDIN_SUCCESS);
    free(bytes);
}

/* Adds the extent that is made for a block, which lies over no other. */
static void add_extent(struct pool *pool, uint32_t type, const struct block *block)
{
    size_t cells = (cells_of(block->size) + PAGE_CELLS - 1) / PAGE_CELLS * PAGE_CELLS;
    struct extent extent = {block->address - 8, type, cells, calloc(cells, 1)};

    if (extent.taken == NULL)
        fail("out of memory");
    HOLDS(extent.start % PAGE_SIZE == 0);
    for (size_t at = 0; at < pool->extent_count; at++) {
        const struct extent *other = &pool->extents[at];

        HOLDS(extent.start + cells * CELL <= other->start ||
              other->start + other->cells * CELL <= extent.start);
    }
    pool->extents[pool->extent_count++] = extent;
}

/* Asks for a block, which is where first fit puts it, or in a new extent with a certificate. */
static void take(struct pool *pool, uint32_t type, struct block block)
{
    uint64_t place = first_fit(pool, type, block.size), length = 0;
    bool is_new;

    HOLDS(RafkudinAllocatePool(pool->core, type, block.size, &block.address) == RAFKUDIN_SUCCESS);
    is_new = RafkudinCertificate(pool->core, NULL, 0, &length) == RAFKUDIN_BUFFER_TOO_SMALL;
    HOLDS(is_new == (place == 0) && (is_new || block.address == place));
    if (is_new)
        add_extent(pool, type, &block);
    mark(pool, &block, true);
    HOLDS(is_filled(pool->core, &block, 0));
    fill(pool->core, &block);
    HOLDS(is_filled(pool->core, &block, block.fill));
    pool->blocks[pool->block_count++] = block;
}

/* Frees a block, which then is none any more. */
static void give(struct pool *pool, size_t at)
{
    struct block block = pool->blocks[at];

    memmove(&pool->blocks[at], &pool->blocks[at + 1],
            (--pool->block_count - at) * sizeof pool->blocks[0]);
    HOLDS(is_filled(pool->core, &block, block.fill));
    HOLDS(RafkudinFreePool(pool->core, block.address) == RAFKUDIN_SUCCESS);
    HOLDS(RafkudinFreePool(pool->core, block.address) == RAFKUDIN_INVALID_PARAMETER);
    mark(pool, &block, false);
}

/* Takes a block as it was drawn, or gives one back. */
static void make_drawn(struct pool *pool, uint64_t number)
{
    static const uint32_t types[4] = {4, 4, 6, 2};
    uint64_t most = number / 32 % 8 == 0 ? 9000 : 300;
    struct block block = {0, number / 256 % most, (uint8_t)(number / 64 % 255)};

    if (number % 5 >= 2)
        take(pool, types[number / 8 % 4], block);
    else if (number / 8 % 512 < pool->block_count)
        give(pool, number / 8 % 512);
}

/* Drawn calls on a machine, after which all blocks are given back: then the memory map is what it
 * was. */
static void draw_on(const struct machine *machine)
{
    static struct pool pool;
    size_t entries;
    uint64_t seed = 2026;

    pool.core = machine_core(machine);
    RafkudinCertify(pool.core, true);
    entries = RafkudinDescriptors(pool.core);
    for (unsigned call = 0; call < CALLS; call++)
        make_drawn(&pool, draw(&seed));
    while (pool.block_count > 0)
        give(&pool, pool.block_count - 1);
    HOLDS(RafkudinDescriptors(pool.core) == entries && pool.extent_count == 0);
    RafkudinFree(pool.core);
}

/* ---- One extent ---- */

/* How the calls on an extent are drawn: block sizes are below `sizes`, and a block is given back once
 * there are more than `blocks`. */
struct draws {
    uint64_t pages;
    unsigned calls;
    uint64_t sizes;
    size_t blocks;
};

static const struct draws draws[] = {
    {1, 500000, 300, 40}, {4, 490000, 500, 100}, {4096, 10000, 60000, 600}};

/* The blocks of one extent by ascending cell, each with the byte at both its ends. */
struct row {
    struct rafkudin *core;
    uint64_t start;
    size_t cells;
    struct {
        size_t cell;
        uint64_t size;
        uint8_t fill;
    } blocks[1024];
    size_t count;
};

/* A core that has a number of pages alone, all of them an extent, which a block in its last cell keeps;
 * that cell does not count. */
static void begin_row(struct row *row, uint64_t pages)
{
    uint64_t first = 0, last = 0;

    row->core = core_of_pages(1, pages, NULL, 0);
    row->count = 0;
    row->start = PAGE_SIZE;
    row->cells = pages * PAGE_CELLS - 1;
    HOLDS(RafkudinAllocatePool(row->core, 4, row->cells * CELL - 8, &first) == RAFKUDIN_SUCCESS);
    HOLDS(RafkudinAllocatePool(row->core, 4, 24, &last) == RAFKUDIN_SUCCESS);
    HOLDS(first == row->start + 8 && last == row->start + row->cells * CELL + 8);
    HOLDS(RafkudinFreePool(row->core, first) == RAFKUDIN_SUCCESS);
}

/* The place among the blocks behind which a block goes, and its cell; there may be none. */
static bool lowest(const struct row *row, uint64_t size, size_t *index, size_t *cell)
{
    size_t need = cells_of(size);

    *cell = 0;
    for (*index = 0; *index < row->count; ++*index) {
        if (*cell + need <= row->blocks[*index].cell)
            return true;
        *cell = row->blocks[*index].cell + cells_of(row->blocks[*index].size);
    }
    return *cell + need <= row->cells;
}

/* Takes a block, all of whose bytes are 0, and writes both its ends. */
static void take_in(struct row *row, uint64_t size, uint8_t fill)
{
    struct block block = {0, size, fill};
    size_t index, cell;
    bool has_place = lowest(row, size, &index, &cell);

    HOLDS(RafkudinAllocatePool(row->core, 4, size, &block.address) ==
          (has_place ? RAFKUDIN_SUCCESS : RAFKUDIN_OUT_OF_RESOURCES));
    if (!has_place)
        return;
    HOLDS(block.address == row->start + cell * CELL + 8);
    HOLDS(is_filled(row->core, &block, 0));
    if (size > 0) {
        HOLDS(RafkudinPoolWrite(row->core, block.address, &fill, 1) == RAFKUDIN_SUCCESS);
        HOLDS(RafkudinPoolWrite(row->core, block.address + size - 1, &fill, 1) == RAFKUDIN_SUCCESS);
    }
    memmove(&row->blocks[index + 1], &row->blocks[index],
            (row->count++ - index) * sizeof row->blocks[0]);
    row->blocks[index].cell = cell;
    row->blocks[index].size = size;
    row->blocks[index].fill = fill;
}

/* Gives back a block, both of whose ends are as they were written. */
static void give_in(struct row *row, size_t index)
{
    uint64_t address = row->start + row->blocks[index].cell * CELL + 8;
    uint64_t size = row->blocks[index].size;
    uint8_t bytes[2] = {row->blocks[index].fill, row->blocks[index].fill}, byte;

    if (size > 0) {
        HOLDS(RafkudinPoolRead(row->core, address, &bytes[0], 1) == RAFKUDIN_SUCCESS);
        HOLDS(RafkudinPoolRead(row->core, address + size - 1, &bytes[1], 1) == RAFKUDIN_SUCCESS);
    }
    HOLDS(bytes[0] == row->blocks[index].fill && bytes[1] == row->blocks[index].fill);
    HOLDS(RafkudinPoolRead(row->core, address + size, &byte, 1) == RAFKUDIN_INVALID_PARAMETER);
    HOLDS(RafkudinFreePool(row->core, address) == RAFKUDIN_SUCCESS);
    HOLDS(RafkudinFreePool(row->core, address) == RAFKUDIN_INVALID_PARAMETER);
    memmove(&row->blocks[index], &row->blocks[index + 1],
            (--row->count - index) * sizeof row->blocks[0]);
}

/* Makes drawn calls on one extent, and at the end gives all its blocks back. */
static void draw_in(const struct draws *drawn)
{
    static struct row row;
    uint64_t seed = 2026, left;

    begin_row(&row, drawn->pages);
    for (unsigned call = 0; call < drawn->calls; call++) {
        uint64_t number = draw(&seed);

        if (row.count > drawn->blocks || (number % 2 == 0 && row.count > 0))
            give_in(&row, number / 2 % row.count);
        else
            take_in(&row, number / 2 % drawn->sizes, (uint8_t)(number % 255));
    }
    while (row.count > 0)
        give_in(&row, row.count - 1);
    left = row.start + row.cells * CELL + 8;
    HOLDS(RafkudinDescriptors(row.core) == 1);
    HOLDS(RafkudinFreePool(row.core, left) == RAFKUDIN_SUCCESS);
    take_in(&row, drawn->pages * PAGE_SIZE - 8 - CELL, 7);
    give_in(&row, 0);
    RafkudinFree(row.core);
}

int main(int count, char **names)
{
    fault_program = "drawn_pool";
    for (int at = 1; at < count; at++) {
        struct machine machine = machine_open(names[at]);

        draw_on(&machine);
        machine_free(&machine);
    }
    for (size_t at = 0; at < COUNT(draws); at++)
        draw_in(&draws[at]);
    return points_end("drawn_pool");
}
