/* What is live and who made it: pool blocks, runs of pages, and the last runs that were freed. Pool
 * blocks that are freed and held back are here too. */
#include "host.h"

#include <stdlib.h>

#define SLOTS 65536U
#define FREED 256U

static struct block *slots[SLOTS];
static struct run *runs;
static size_t run_count, run_room;
static struct freed_run freed[FREED];
static size_t freed_next;

static struct block **slot_of(uint64_t at)
{
    return &slots[(at >> 3 ^ at >> 19) % SLOTS];
}

void ledger_add_block(const struct block *block)
{
    struct block *copy = must(malloc(sizeof *copy)), **slot = slot_of(block->at);

    *copy = *block;
    copy->next = *slot;
    *slot = copy;
}

static struct block *block_at(uint64_t at, bool gone)
{
    struct block *block = *slot_of(at);

    while (block != NULL && (block->at != at || block->gone != gone))
        block = block->next;
    return block;
}

/* The live block that begins at an address, or NULL. */
struct block *ledger_block(uint64_t at)
{
    return block_at(at, false);
}

/* The freed one that is held back. */
struct block *ledger_gone_block(uint64_t at)
{
    return block_at(at, true);
}

/* The block, live or held back, in whose piece of memory an address lies. */
struct block *ledger_block_around(uint64_t address)
{
    for (size_t i = 0; i < SLOTS; i++)
        for (struct block *block = slots[i]; block != NULL; block = block->next)
            if (address - block->start < block->room)
                return block;
    return NULL;
}

void ledger_drop_block(struct block *block)
{
    struct block **link = slot_of(block->at);

    while (*link != block)
        link = &(*link)->next;
    *link = block->next;
    free(block);
}

/* Visits the live blocks. */
void ledger_each_block(void (*visit)(struct block *block, void *context), void *context)
{
    for (size_t i = 0; i < SLOTS; i++)
        for (struct block *block = slots[i]; block != NULL; block = block->next)
            if (!block->gone)
                visit(block, context);
}

void ledger_add_run(const struct run *run)
{
    if (run_count == run_room) {
        run_room = run_room == 0 ? 64 : 2 * run_room;
        runs = must(realloc(runs, run_room * sizeof *runs));
    }
    runs[run_count++] = *run;
}

struct run *ledger_run_with(uint64_t address)
{
    for (size_t i = 0; i < run_count; i++)
        if (address - runs[i].at < runs[i].pages * PAGE)
            return &runs[i];
    return NULL;
}

/* The red pages of a run, one before it and one behind it; 0 where there is none. */
static uint64_t page_before(const struct run *run)
{
    return run->red_before ? run->at - PAGE : 0;
}

static uint64_t page_behind(const struct run *run)
{
    return run->red_behind ? run->at + run->pages * PAGE : 0;
}

static bool is_in(uint64_t address, uint64_t at, uint64_t size)
{
    return address != 0 && address - at < size;
}

/* The run before or behind which a red page with this address lies. */
struct run *ledger_run_beside(uint64_t address)
{
    uint64_t page = address & ~(PAGE - 1);

    for (size_t i = 0; i < run_count; i++)
        if (is_in(page_before(&runs[i]), page, PAGE) || is_in(page_behind(&runs[i]), page, PAGE))
            return &runs[i];
    return NULL;
}

/* Whether a red page is among these pages. */
bool ledger_red_among(uint64_t at, uint64_t pages)
{
    for (size_t i = 0; i < run_count; i++)
        if (is_in(page_before(&runs[i]), at, pages * PAGE) ||
            is_in(page_behind(&runs[i]), at, pages * PAGE))
            return true;
    return false;
}

/* Takes pages out of all runs, of which what lies before and behind stays. */
void ledger_cut_runs(uint64_t at, uint64_t pages)
{
    uint64_t end = at + pages * PAGE;

    for (size_t i = run_count; i-- > 0;) {
        struct run run = runs[i], piece = run;
        uint64_t run_end = run.at + run.pages * PAGE;

        if (run_end <= at || run.at >= end)
            continue;
        runs[i] = runs[--run_count];
        if (run.at < at) {
            piece.pages = (at - run.at) / PAGE;
            piece.red_behind = false;
            ledger_add_run(&piece);
        }
        if (run_end > end) {
            piece = run;
            piece.at = end;
            piece.pages = (run_end - end) / PAGE;
            piece.red_before = false;
            ledger_add_run(&piece);
        }
    }
}

void ledger_each_run(void (*visit)(struct run *run, void *context), void *context)
{
    for (size_t i = 0; i < run_count; i++)
        visit(&runs[i], context);
}

void ledger_add_freed(uint64_t at, uint64_t pages, struct origin made)
{
    freed[freed_next++ % FREED] = (struct freed_run){at, pages, made, origin_without_callers()};
}

/* The latest run that was freed with an address in it. */
struct freed_run *ledger_freed_with(uint64_t address)
{
    for (size_t i = 1; i <= FREED && i <= freed_next; i++) {
        struct freed_run *run = &freed[(freed_next - i) % FREED];

        if (address - run->at < run->pages * PAGE)
            return run;
    }
    return NULL;
}
