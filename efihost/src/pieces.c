/* The memory in which the pool's blocks lie with --check and --guard. It is at addresses that the
 * machine doesn't have: so what lies around a block, and blocks that are held back after they were
 * freed, take nothing of the machine's memory, and the core's replies are those of a run without a
 * check.
 *
 * A piece has one of eight sizes for each power of two, and serves a request of its size again once
 * it is given back. Pieces of memory that is executable lie apart. */
#include "host.h"

#include <stdlib.h>
#include <sys/mman.h>

#define CELL 32U
#define CHUNK 65536U /* bytes from which small pieces are cut */
#define RANGE (1ULL << 30)
#define SIZES 512U
#define MAX_RANGES 64U

static struct pile {
    uint64_t *pieces;
    size_t count, room;
} piles[2][SIZES];
static struct {
    uint64_t start, at, end; /* what lies before `at` had pieces already */
} chunks[2], ranges[MAX_RANGES];
static size_t range_count;

/* The number of a size that is enough for `size` bytes, which becomes that size. */
static unsigned size_number(uint64_t *size)
{
    uint64_t unit = host.options.guard ? PAGE : CELL, count = (*size + unit - 1) / unit;
    unsigned shift = 0;

    while (count >> shift >= 16)
        shift++;
    count = (count + (1ULL << shift) - 1) >> shift;
    *size = (count << shift) * unit;
    return count == 16 ? shift * 16 + 24 : shift * 16 + (unsigned)count;
}

bool in_pieces(uint64_t address)
{
    for (size_t i = 0; i < range_count; i++)
        if (address >= ranges[i].start && address < ranges[i].end)
            return true;
    return false;
}

/* Whole pages that no piece had yet, or 0. */
static uint64_t new_pages(uint64_t size)
{
    uint64_t at;

    if (range_count == 0 || ranges[range_count - 1].end - ranges[range_count - 1].at < size) {
        uint64_t whole = size < RANGE ? RANGE : size;

        at = range_count == MAX_RANGES ? 0 : add_pool_range(whole);
        if (at == 0)
            return 0;
        ranges[range_count].start = ranges[range_count].at = at;
        ranges[range_count++].end = at + whole;
    }
    at = ranges[range_count - 1].at;
    ranges[range_count - 1].at += size;
    if (!host.options.guard)
        open_memory(at, size);
    return at;
}

/* Memory of `*size` bytes or some more, which is at `*size` then; 0 where there is none. With
 * --guard it is whole pages, which are shut. */
uint64_t take_piece(uint64_t *size, bool executable)
{
    struct pile *pile = &piles[executable][size_number(size)];

    if (pile->count > 0)
        return pile->pieces[--pile->count];
    if (*size >= CHUNK / 2 || host.options.guard)
        return new_pages((*size + PAGE - 1) / PAGE * PAGE);
    if (chunks[executable].end - chunks[executable].at < *size) {
        chunks[executable].at = new_pages(CHUNK);
        if (chunks[executable].at == 0)
            return chunks[executable].end = 0;
        chunks[executable].end = chunks[executable].at + CHUNK;
    }
    chunks[executable].at += *size;
    return chunks[executable].at - *size;
}

/* Gives a piece back. The pages of a large one are the system's until it is used again. */
void give_piece(uint64_t at, uint64_t size, bool executable)
{
    struct pile *pile = &piles[executable][size_number(&size)];

    if (size >= CHUNK)
        madvise(POINTER(at), size / PAGE * PAGE, MADV_DONTNEED);
    if (pile->count == pile->room) {
        pile->room = pile->room == 0 ? 16 : 2 * pile->room;
        pile->pieces = must(realloc(pile->pieces, pile->room * sizeof *pile->pieces));
    }
    pile->pieces[pile->count++] = at;
}
