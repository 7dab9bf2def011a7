/* The bytes around a pool block that are nobody's, for --check and --guard.
 *
 * With --check there are bytes with patterns on both sides of a block, which are looked at when it
 * is freed and at ends. With --guard the block ends at the end of a page, behind which is one that
 * is shut, and all its pages are shut once it is freed. A freed block is held back: its bytes have a
 * pattern too, which is looked at when its memory is to be used again and at ends. */
#include "host.h"

#include <string.h>

#define BEFORE 0xb5
#define BEHIND 0xc5
#define FRESH 0xaf
#define MAX_FRESH 4096U /* of a block, to keep large ones cheap */
#define GONE 0xdd
#define FILLED 1024U
#define MARGIN 32U
#define FRONT 40U /* bytes before a block, whose address is 8 more than a multiple of 32 as the core's */

static uint64_t up(uint64_t number, uint64_t multiple)
{
    return (number + multiple - 1) / multiple * multiple;
}

/* The page behind a block that is shut. */
static uint64_t shut_page(const struct block *block)
{
    return block->start + up(block->size, PAGE);
}

static uint64_t behind_end(const struct block *block)
{
    return block->paged ? shut_page(block) : block->at + block->size + MARGIN;
}

/* In pieces for which the C library takes no string instruction: these begin slowly, and valgrind counts
 * their bytes one by one. */
static void fill(uint64_t at, uint64_t end, uint8_t pattern)
{
    for (; end - at > FILLED; at += FILLED)
        memset(POINTER(at), pattern, FILLED);
    memset(POINTER(at), pattern, end - at);
}

/* Finds the place of a block and lays the patterns. Where the process has no memory for that, it is
 * the core's block with nothing around it. */
void zone_make(struct block *block)
{
    block->paged = host.options.guard;
    block->room = block->paged ? up(block->size, PAGE) + PAGE : FRONT + block->size + MARGIN;
    block->start = take_piece(&block->room, block->executable);
    if (block->start == 0) {
        block->at = block->core_at;
        block->room = 0;
        open_memory(block->at, block->size);
        return;
    }
    if (block->paged) {
        block->at = shut_page(block) - up(block->size, 8);
        open_memory(block->start, up(block->size, PAGE));
    } else {
        block->at = block->start + FRONT;
    }
    fill(block->start, block->at, BEFORE);
    fill(block->at, block->at + (block->size < MAX_FRESH ? block->size : MAX_FRESH), FRESH);
    fill(block->at + block->size, behind_end(block), BEHIND);
}

/* The first of these bytes that is not the pattern, or their end. Where all of them are, each is
 * the one before it. */
static const uint8_t *first_other(const uint8_t *at, const uint8_t *end, uint8_t pattern)
{
    if (at < end && *at == pattern && memcmp(at, at + 1, (size_t)(end - at) - 1) == 0)
        return end;
    while (at < end && *at == pattern)
        at++;
    return at;
}

/* When a harm is seen: now, where a block is freed, or as the caller says. */
static const char *seen(const char *when, char *text, size_t room)
{
    struct origin origin;

    if (when != NULL)
        return when;
    origin = origin_now();
    snprintf(text, room, "when %s frees it", origin_text(&origin));
    return text;
}

/* Looks whether a byte on either side of a block was written; `when` is null where it is freed. */
void zone_look(struct block *block, const char *when)
{
    const uint8_t *at = POINTER(block->at), *end = POINTER(behind_end(block)), *other;
    char text[256];

    if (block->room == 0 || block->harmed)
        return;
    other = first_other(at + block->size, end, BEHIND);
    if (other < end) {
        block->harmed = true;
        found(BEHIND_BLOCK, &block->origin,
              "byte %lu behind a block of %lu bytes at 0x%lx was written, 0x%02x, seen %s; it is "
              "allocated",
              (uint64_t)(other - at) - block->size, block->size, block->at, *other,
              seen(when, text, sizeof text));
        return;
    }
    if (first_other(POINTER(block->start), at, BEFORE) == at)
        return;
    block->harmed = true;
    for (other = at - 1; *other == BEFORE; other--)
        ;
    found(BEFORE_BLOCK, &block->origin,
          "byte %lu before a block of %lu bytes at 0x%lx was written, 0x%02x, seen %s; it is "
          "allocated",
          (uint64_t)(at - other), block->size, block->at, *other, seen(when, text, sizeof text));
}

/* After the core has freed a block. */
void zone_free(const struct block *block, bool held_back)
{
    if (block->paged)
        shut_memory(block->start, up(block->size, PAGE));
    else if (held_back)
        fill(block->at, block->at + block->size, GONE);
}

/* Looks whether a freed block, whose bytes nobody should have written, was. */
void zone_look_at_gone(struct block *block)
{
    const uint8_t *at = POINTER(block->at), *other;

    if (block->paged || block->harmed || host.exited)
        return;
    other = first_other(at, at + block->size, GONE);
    if (other == at + block->size)
        return;
    block->harmed = true;
    found_with(USE_AFTER_FREE, &block->origin, &block->freed,
               "byte %lu of a block of %lu bytes at 0x%lx was written after %s freed it; it is "
               "allocated",
               (uint64_t)(other - at), block->size, block->at, origin_text(&block->freed));
}

static void look_at_block(struct block *block, void *context)
{
    zone_look(block, context);
}

/* Looks at all blocks, live and freed. Once boot services have ended all memory is the system's. */
void zone_look_at_all(const char *when)
{
    if (!host.checks || host.exited)
        return;
    ledger_each_block(look_at_block, (void *)(uintptr_t)when);
    each_held_back(zone_look_at_gone);
}
