/* Blocks that were freed and whose memory no other block has yet, up to a limit in bytes: what is
 * written through a pointer that is left to one is seen, and harms no other block. */
#include "host.h"

static struct block *oldest, *newest;
static uint64_t bytes;

static void drop(struct block *block)
{
    give_piece(block->start, block->room, block->executable);
    ledger_drop_block(block);
}

static void release_oldest(void)
{
    struct block *block = oldest;

    zone_look_at_gone(block);
    oldest = block->later;
    if (oldest == NULL)
        newest = NULL;
    bytes -= block->room;
    drop(block);
}

/* Holds a freed block of the ledger back, and releases the oldest, which then pass the limit. One
 * that is above the limit by itself drives no others out. */
void hold_back(struct block *block)
{
    bool fits = block->room <= host.options.quarantine;

    zone_free(block, fits);
    if (!fits) {
        drop(block);
        return;
    }
    block->gone = true;
    block->later = NULL;
    if (newest == NULL)
        oldest = block;
    else
        newest->later = block;
    newest = block;
    bytes += block->room;
    while (bytes > host.options.quarantine)
        release_oldest();
}

void each_held_back(void (*visit)(struct block *block))
{
    for (struct block *block = oldest; block != NULL; block = block->later)
        visit(block);
}
