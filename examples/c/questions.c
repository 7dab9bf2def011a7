/* Asks a core what it has, and compares that with lists that this program keeps itself, through
 * drawn calls: blocks of the pool, runs of pages, handles, interfaces and open items. No question
 * may change anything. Interfaces go by UninstallMultipleProtocolInterfaces, all of some or none.
 * Each point that is not as said is printed on standard error, and then the status is 1. */
#include "points.h"

#include <rafkudin.h>

#include <stdlib.h>
#include <string.h>

#define ROUNDS 400U
#define MAX_ITEMS 64U
#define MAX_OPENS 512U

/* The rounds after which it is mostly closed, and then again mostly opened. */
#define PHASE 50U

static const struct rafkudin_guid guids[4] = {{{1}}, {{2}}, {{3}}, {{4}}};

struct block {
    uint64_t address, size;
    uint32_t type;
};

struct interface {
    uint64_t handle, value;
    unsigned guid;
};

struct open {
    uint64_t handle, agent, controller;
    unsigned guid;
    uint32_t attributes, count;
};

static struct rafkudin *core;
static struct block blocks[MAX_ITEMS];
static struct interface interfaces[MAX_ITEMS];
static struct open opens[MAX_OPENS];
static size_t block_count, interface_count, open_count;

static uint32_t drawn(uint32_t below)
{
    static uint64_t state = 1;

    state = state * 6364136223846793005U + 1442695040888963407U;
    return (uint32_t)(state >> 33) % below;
}

static bool same_guid(const struct rafkudin_guid *a, unsigned b)
{
    return memcmp(a, &guids[b], sizeof *a) == 0;
}

/* ---- drawn calls, and the lists of this program */

static int by_address(const void *a, const void *b)
{
    const struct block *one = a, *two = b;

    return (one->address > two->address) - (one->address < two->address);
}

static void change_blocks(void)
{
    static const uint32_t types[] = {RAFKUDIN_LOADER_DATA, RAFKUDIN_BOOT_SERVICES_DATA,
                                     RAFKUDIN_RUNTIME_SERVICES_DATA};
    struct block made = {0, 0, types[drawn(3)]};

    if (block_count == MAX_ITEMS || (block_count > 0 && drawn(3) == 0)) {
        size_t at = drawn((uint32_t)block_count);

        HOLDS(RafkudinFreePool(core, blocks[at].address) == RAFKUDIN_SUCCESS);
        blocks[at] = blocks[--block_count];
    } else {
        made.size = drawn(4) == 0 ? drawn(20000) : drawn(200);
        HOLDS(RafkudinAllocatePool(core, made.type, made.size, &made.address) == RAFKUDIN_SUCCESS);
        blocks[block_count++] = made;
    }
    qsort(blocks, block_count, sizeof *blocks, by_address);
}

static uint64_t any_handle(void)
{
    return interface_count == 0 ? 0 : interfaces[drawn((uint32_t)interface_count)].handle;
}

static void install(void)
{
    struct interface made = {drawn(3) == 0 ? 0 : any_handle(), drawn(1000), drawn(4)};

    if (interface_count < MAX_ITEMS &&
        RafkudinInstallProtocolInterface(core, &made.handle, &guids[made.guid], 0, made.value) ==
            RAFKUDIN_SUCCESS)
        interfaces[interface_count++] = made;
}

/* The agent of every second open is one of three. */
static uint64_t any_agent(void)
{
    return drawn(2) == 0 ? any_handle() : interfaces[drawn(3) % interface_count].handle;
}

/* An open that asks for nothing else than that it is noted. */
static void note_open(void)
{
    const struct interface *it = &interfaces[drawn((uint32_t)interface_count)];
    struct open made = {it->handle, any_agent(), any_handle(), it->guid, RAFKUDIN_GET_PROTOCOL, 1};
    uint64_t value = 0;

    if (open_count == MAX_OPENS ||
        RafkudinOpenProtocol(core, made.handle, &guids[made.guid], &value, made.agent,
                             made.controller, made.attributes) != RAFKUDIN_SUCCESS)
        return;
    HOLDS(value == it->value);
    for (size_t i = 0; i < open_count; i++)
        if (opens[i].handle == made.handle && opens[i].guid == made.guid &&
            opens[i].agent == made.agent && opens[i].controller == made.controller) {
            opens[i].count++;
            return;
        }
    opens[open_count++] = made;
}

static void close_one(void)
{
    size_t at = drawn((uint32_t)open_count);
    struct open gone = opens[at];

    HOLDS(RafkudinCloseProtocol(core, gone.handle, &guids[gone.guid], gone.agent,
                                gone.controller) == RAFKUDIN_SUCCESS);
    memmove(opens + at, opens + at + 1, (--open_count - at) * sizeof *opens);
}

/* Some opens and closes, mostly closes or mostly opens. */
static void change_opens(bool closing)
{
    for (uint32_t left = 1 + drawn(6); left > 0; left--)
        if (open_count > 0 && drawn(5) < (closing ? 4U : 1U))
            close_one();
        else
            note_open();
}

/* The interfaces that are left, and what is open: all that names a handle without any goes too. */
static void drop_interface(uint64_t handle, unsigned guid)
{
    bool live = false;
    size_t kept = 0;

    for (size_t i = 0; i < interface_count; i++)
        if (interfaces[i].handle != handle || interfaces[i].guid != guid)
            interfaces[kept++] = interfaces[i];
    interface_count = kept;
    for (size_t i = 0; i < interface_count; i++)
        live = live || interfaces[i].handle == handle;
    kept = 0;
    for (size_t i = 0; i < open_count; i++) {
        bool on = opens[i].handle == handle && opens[i].guid == guid;
        bool names = opens[i].agent == handle || opens[i].controller == handle;

        if (!on && (live || !names))
            opens[kept++] = opens[i];
    }
    open_count = kept;
}

/* Some interfaces of a handle, one of them perhaps with another value or twice: all go, or none. */
static void uninstall_many(void)
{
    struct rafkudin_interface gone[5];
    uint64_t handle = any_handle();
    bool all = true;
    size_t count = 0;

    for (size_t i = interface_count; i-- > 0;)
        if (interfaces[i].handle == handle && drawn(2) == 0) {
            gone[count].guid = guids[interfaces[i].guid];
            gone[count++].value = interfaces[i].value;
        }
    if (count > 0 && drawn(3) == 0) {
        gone[count - 1].value++;
        all = false;
    } else if (count > 0 && drawn(4) == 0) {
        gone[count] = gone[drawn((uint32_t)count)];
        count++;
        all = false;
    }
    HOLDS(RafkudinUninstallMultipleProtocolInterfaces(core, handle, gone, count) ==
          (all ? RAFKUDIN_SUCCESS : RAFKUDIN_INVALID_PARAMETER));
    HOLDS(RafkudinEvents(core, NULL, 0) == 0);
    for (size_t i = 0; all && i < count; i++)
        for (unsigned k = 0; k < 4; k++)
            if (same_guid(&gone[i].guid, k))
                drop_interface(handle, k);
}

/* ---- what the core says, beside these lists */

static void ask_blocks(void)
{
    struct rafkudin_block block = {7, 7, 7};
    uint64_t address = 0;
    size_t at = 0;

    for (; RafkudinBlockFrom(core, address, &block) == RAFKUDIN_SUCCESS; at++) {
        HOLDS(at < block_count && block.address == blocks[at].address &&
              block.size == blocks[at].size && block.type == blocks[at].type);
        address = block.address + 1;
    }
    HOLDS(at == block_count);
    for (at = 0; at < block_count; at++) {
        uint64_t from = blocks[at].address + drawn(100);
        size_t next = at;

        while (next < block_count && blocks[next].address < from)
            next++;
        block.address = 1;
        HOLDS((RafkudinBlockFrom(core, from, &block) == RAFKUDIN_SUCCESS) == (next < block_count));
        HOLDS(block.address == (next < block_count ? blocks[next].address : 1));
    }
    HOLDS(RafkudinBlockFrom(core, UINT64_MAX, &block) == RAFKUDIN_NOT_FOUND);
}

/* The runs are the map's entries, cut where the owner changes; the pool's have room for its blocks. */
static void ask_runs(void)
{
    struct rafkudin_descriptor entry = {0, 0, 0, 0};
    struct rafkudin_run run, last = {0, 0, 0, 0, 0};
    size_t count = RafkudinRuns(core), entries = 0;
    uint64_t left = 0, in_blocks = 0, in_pool = 0;

    for (size_t i = 0; i < count; i++, last = run) {
        HOLDS(RafkudinRun(core, i, &run) == RAFKUDIN_SUCCESS);
        if (left == 0) {
            HOLDS(RafkudinDescriptor(core, entries++, &entry) == RAFKUDIN_SUCCESS);
            HOLDS(run.physical_start == entry.physical_start);
            left = entry.number_of_pages;
        } else {
            HOLDS(run.owner != last.owner);
        }
        HOLDS(run.type == entry.type && run.attribute == entry.attribute);
        HOLDS(run.number_of_pages >= 1 && run.number_of_pages <= left);
        HOLDS(run.type != RAFKUDIN_CONVENTIONAL || run.owner == RAFKUDIN_GIVEN);
        left -= run.number_of_pages;
        in_pool += run.owner == RAFKUDIN_POOL ? run.number_of_pages * 4096 : 0;
    }
    HOLDS(left == 0 && entries == RafkudinDescriptors(core));
    HOLDS(RafkudinRun(core, count, &run) == RAFKUDIN_NOT_FOUND);
    for (size_t i = 0; i < block_count; i++)
        in_blocks += blocks[i].size + 8;
    HOLDS(in_pool >= in_blocks && (in_pool == 0) == (block_count == 0));
}

static bool is_live(uint64_t handle)
{
    for (size_t i = 0; i < interface_count; i++)
        if (interfaces[i].handle == handle)
            return true;
    return false;
}

static bool carries(uint64_t handle, unsigned guid)
{
    for (size_t i = 0; i < interface_count; i++)
        if (interfaces[i].handle == handle && interfaces[i].guid == guid)
            return true;
    return false;
}

static void ask_handles(void)
{
    struct rafkudin_interface found;
    uint64_t handle = 0, last = 0;
    size_t index, at, holders[4] = {0};

    for (index = 0; RafkudinHandle(core, index, &handle) == RAFKUDIN_SUCCESS; index++) {
        HOLDS(handle > last && is_live(handle));
        last = handle;
        at = 0;
        for (size_t i = 0; i < interface_count; i++)
            if (interfaces[i].handle == handle) {
                HOLDS(RafkudinInterface(core, handle, at++, &found) == RAFKUDIN_SUCCESS);
                HOLDS(same_guid(&found.guid, interfaces[i].guid) &&
                      found.value == interfaces[i].value);
            }
        HOLDS(at > 0 && RafkudinInterface(core, handle, at, &found) == RAFKUDIN_NOT_FOUND);
        for (unsigned k = 0; k < 4; k++)
            if (carries(handle, k)) {
                uint64_t holder = 0;

                HOLDS(RafkudinHolder(core, &guids[k], holders[k]++, &holder) == RAFKUDIN_SUCCESS);
                HOLDS(holder == handle);
            }
    }
    for (size_t i = 0; i < interface_count; i++)
        HOLDS(interfaces[i].handle <= last);
    for (unsigned k = 0; k < 4; k++)
        HOLDS(RafkudinHolder(core, &guids[k], holders[k], &handle) == RAFKUDIN_NOT_FOUND);
    HOLDS(RafkudinInterface(core, last + 1, 0, &found) == RAFKUDIN_NOT_FOUND);
}

/* Handles all at once are those one after the other; a buffer that is too small is left. */
static void ask_lists(void)
{
    uint64_t list[MAX_ITEMS + 1], count = 0, handle = 0;

    HOLDS(RafkudinHandlesInto(core, list, MAX_ITEMS, &count) == RAFKUDIN_SUCCESS);
    for (size_t i = 0; i < count; i++)
        HOLDS(RafkudinHandle(core, i, &handle) == RAFKUDIN_SUCCESS && handle == list[i]);
    HOLDS(RafkudinHandle(core, count, &handle) == RAFKUDIN_NOT_FOUND);
    for (unsigned k = 0; k < 4; k++) {
        HOLDS(RafkudinHoldersInto(core, &guids[k], list, MAX_ITEMS, &count) == RAFKUDIN_SUCCESS);
        for (size_t i = 0; i < count; i++)
            HOLDS(RafkudinHolder(core, &guids[k], i, &handle) == RAFKUDIN_SUCCESS &&
                  handle == list[i]);
        HOLDS(RafkudinHolder(core, &guids[k], count, &handle) == RAFKUDIN_NOT_FOUND);
        if (count == 0)
            continue;
        list[0] = 0;
        HOLDS(RafkudinHoldersInto(core, &guids[k], list, count - 1, &handle) ==
              RAFKUDIN_BUFFER_TOO_SMALL);
        HOLDS(list[0] == 0 && handle == count);
    }
}

static bool same_item(const struct rafkudin_item *item, const struct open *open)
{
    return item->agent == open->agent && item->controller == open->controller &&
           item->attributes == open->attributes && item->open_count == open->count;
}

/* The items of one interface: one after the other, all at once, and into a buffer too small. */
static void ask_items(uint64_t handle, unsigned guid)
{
    struct rafkudin_item item, items[MAX_OPENS];
    uint64_t count = MAX_OPENS + 1;
    size_t at = 0;

    HOLDS(RafkudinOpenProtocolInformationInto(core, handle, &guids[guid], items, MAX_OPENS,
                                              &count) == RAFKUDIN_SUCCESS);
    for (size_t i = 0; i < open_count; i++)
        if (opens[i].handle == handle && opens[i].guid == guid) {
            HOLDS(RafkudinOpenItem(core, handle, &guids[guid], at, &item) == RAFKUDIN_SUCCESS);
            HOLDS(same_item(&item, &opens[i]) && at < count && same_item(&items[at], &opens[i]));
            at++;
        }
    HOLDS(count == at);
    HOLDS(RafkudinOpenItem(core, handle, &guids[guid], at, &item) == RAFKUDIN_NOT_FOUND);
    if (at == 0)
        return;
    count = 0;
    items[0].agent = 77;
    HOLDS(RafkudinOpenProtocolInformationInto(core, handle, &guids[guid], items, at - 1, &count) ==
          RAFKUDIN_BUFFER_TOO_SMALL);
    HOLDS(count == at && items[0].agent == 77);
}

static void ask_opens(void)
{
    struct rafkudin_open item;
    uint64_t count = 5;

    for (size_t i = 0; i < interface_count; i++)
        ask_items(interfaces[i].handle, interfaces[i].guid);
    for (size_t i = 0; i < interface_count; i++) {
        uint64_t agent = interfaces[i].handle;
        size_t at = 0;

        for (size_t k = 0; k < open_count; k++)
            if (opens[k].agent == agent) {
                HOLDS(RafkudinAgentItem(core, agent, at++, &item) == RAFKUDIN_SUCCESS);
                HOLDS(item.handle == opens[k].handle && same_guid(&item.guid, opens[k].guid));
                HOLDS(item.agent == agent && item.controller == opens[k].controller);
                HOLDS(item.attributes == opens[k].attributes &&
                      item.open_count == opens[k].count);
            }
        HOLDS(RafkudinAgentItem(core, agent, at, &item) == RAFKUDIN_NOT_FOUND);
    }
    HOLDS(RafkudinOpenProtocolInformationInto(core, 1000, &guids[0], NULL, 0, &count) ==
          RAFKUDIN_NOT_FOUND);
    HOLDS(count == 5);
}

static uint64_t map_key(void)
{
    static uint8_t map[65536];
    uint64_t size = sizeof map, key = 0;

    HOLDS(RafkudinGetMemoryMap(core, &size, map, &key, NULL, NULL) == RAFKUDIN_SUCCESS);
    return key;
}

static void ask_all(void)
{
    uint64_t left = RafkudinCallsLeft(core);

    ask_blocks();
    ask_runs();
    ask_handles();
    ask_lists();
    ask_opens();
    HOLDS(RafkudinCallsLeft(core) == left);
}

int main(void)
{
    static const uint64_t record[5] = {RAFKUDIN_CONVENTIONAL, 0x100000, 0, 4096, 0xf};
    uint64_t address = 0, key;

    if (RafkudinMake((const uint8_t *)record, sizeof record, sizeof record, 1, NULL, 0, &core) !=
        RAFKUDIN_SUCCESS)
        return 1;
    ask_all();
    for (unsigned round = 0; round < ROUNDS; round++) {
        if (drawn(3) == 0)
            change_blocks();
        else if (drawn(3) == 0 || interface_count == 0)
            install();
        else if (drawn(8) == 0)
            uninstall_many();
        else
            change_opens(round / PHASE % 2 == 1);
        if (drawn(16) == 0)
            HOLDS(RafkudinAllocatePages(core, RAFKUDIN_ANY_PAGES, RAFKUDIN_LOADER_DATA, drawn(4) + 1,
                                        &address) == RAFKUDIN_SUCCESS);
        ask_all();
    }
    key = map_key();
    ask_all();
    HOLDS(map_key() == key);
    HOLDS(RafkudinExitBootServices(core, 0, key) == RAFKUDIN_SUCCESS);
    ask_all();
    RafkudinFree(core);
    return points_end("questions");
}
