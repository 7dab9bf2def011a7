/* Makes calls of memory and protocol services with arguments that are drawn, right and wrong ones,
 * and prints the statuses, and of what they return all but addresses: which are the same whatever
 * is checked. Its argument is the seed. */
#include "loader.h"

#define PAGE 4096ULL
#define CALLS 700U
#define MAX_BLOCKS 48U
#define MAX_RUNS 24U
#define MAX_HANDLES 12U
#define GUIDS 4U
#define ANY(list) ((list)[draw(sizeof(list) / sizeof *(list))])

static uint64_t state, last_key;
static struct {
    uint8_t *at;
    UINTN size;
} blocks[MAX_BLOCKS];
static struct {
    uint64_t at, pages;
    BOOLEAN whole; /* its type is one that some machines place in pieces of 16 pages */
} runs[MAX_RUNS];
static EFI_HANDLE handles[MAX_HANDLES];
static unsigned block_count, run_count, handle_count;
static uint8_t *freed;
static uint32_t interface;
static CHAR16 line[128];
static unsigned length;

static uint64_t draw(uint64_t below)
{
    state ^= state << 13;
    state ^= state >> 7;
    state ^= state << 17;
    return state % below;
}

static void end_line(void)
{
    line[length++] = '\r';
    line[length++] = '\n';
    line[length] = 0;
    table->ConOut->OutputString(table->ConOut, line);
    length = 0;
}

/* Adds a letter for the call and what it returned. */
static void say(char call, uint64_t number)
{
    line[length++] = (CHAR16)call;
    do
        line[length++] = (CHAR16) "0123456789abcdefghijklmnopqrstuvwxyz"[number % 36];
    while ((number /= 36) != 0);
    if (length > 60)
        end_line();
}

static EFI_STATUS status(char call, EFI_STATUS returned)
{
    say(call, returned & 31);
    return returned;
}

static uint32_t any_type(void)
{
    static const uint32_t types[] = {0, 1, 2, 2, 2, 3, 4, 4,          4,          5,
                                     6, 7, 8, 9, 10, 14, 15, 16, 0x6fffffff, 0x70000000,
                                     0xffffffff};

    return ANY(types);
}

static uint64_t any_size(void)
{
    static const uint64_t sizes[] = {0,           1,
                                     4095,        4096,
                                     65536,       1ULL << 32,
                                     (1ULL << 32) - 1, (1ULL << 32) - 64,
                                     (1ULL << 32) + 1, 1ULL << 52,
                                     1ULL << 63,  ~0ULL,
                                     ~0ULL - 7,   ~0ULL - 63,
                                     ~0ULL - 4095};

    return draw(3) != 0 ? draw(3000) : ANY(sizes);
}

static uint64_t any_pages(void)
{
    static const uint64_t pages[] = {0,           1,           2,          16,
                                     1ULL << 51,  1ULL << 52,  (1ULL << 52) - 1, (1ULL << 52) - 2,
                                     (1ULL << 52) + 1, (1ULL << 52) + 2, 1ULL << 63, ~0ULL,
                                     ~0ULL - 1,   ~0ULL - 2};

    return draw(3) != 0 ? 1 + draw(20) : ANY(pages);
}

static void take_block(void)
{
    UINTN size = any_size();
    void *block = NULL;

    if (status('p', boot->AllocatePool(any_type(), size, &block)) != EFI_SUCCESS)
        return;
    say('a', (uint64_t)(uintptr_t)block % 8);
    if (block_count == MAX_BLOCKS || size > 1 << 20) {
        status('f', boot->FreePool(block));
        return;
    }
    boot->SetMem(block, size, (uint8_t)size);
    blocks[block_count].at = block;
    blocks[block_count++].size = size;
}

static void give_block(void)
{
    unsigned i = (unsigned)draw(block_count + 1);

    if (i == block_count)
        return;
    for (UINTN k = 0; k < blocks[i].size; k++)
        if (blocks[i].at[k] != (uint8_t)blocks[i].size)
            say('!', k);
    freed = blocks[i].at;
    status('f', boot->FreePool(freed));
    blocks[i] = blocks[--block_count];
    if (draw(3) == 0)
        status('g', boot->FreePool(freed));
}

/* Frees what is no block: in the middle of one, before and behind it, and what no memory has. */
static void give_no_block(void)
{
    static const uint64_t places[] = {0, 1, 8, 4096, 0x7fffffffffffffff, ~0ULL, ~0ULL - 7, 1ULL << 63};
    unsigned i = (unsigned)draw(block_count + 1);

    if (i == block_count)
        status('w', boot->FreePool((void *)(uintptr_t)ANY(places)));
    else
        status('w', boot->FreePool(blocks[i].at + 1 + draw(blocks[i].size + 7)));
    if (run_count > 0)
        status('w', boot->FreePool((void *)(uintptr_t)(runs[0].at + 8)));
}

/* The largest range that the map has as conventional, and of all ranges what is alike. */
static uint64_t look_at_map(uint64_t *pages, BOOLEAN says)
{
    UINTN size = sizeof map, step = 0, key = 0;
    uint64_t at = 0, whole = 0, found = 0, end = 0;
    uint32_t version = 0;

    *pages = 0;
    if (boot->GetMemoryMap(&size, (EFI_MEMORY_DESCRIPTOR *)(void *)map, &key, &step, &version) !=
        EFI_SUCCESS)
        return 0;
    for (UINTN i = 0; i < size; i += step) {
        const EFI_MEMORY_DESCRIPTOR *it = (const EFI_MEMORY_DESCRIPTOR *)(const void *)(map + i);

        whole += it->NumberOfPages;
        if (it->PhysicalStart < end)
            say('!', i);
        end = it->PhysicalStart + it->NumberOfPages * PAGE;
        for (unsigned k = 0; k < run_count; k++)
            found += runs[k].at >= it->PhysicalStart && runs[k].at < end;
        if (it->Type == 7 && it->NumberOfPages > *pages) {
            at = it->PhysicalStart;
            *pages = it->NumberOfPages;
        }
    }
    if (says) {
        say('m', whole);
        say('r', found);
        say('k', key);
    }
    last_key = key;
    return at;
}

static void keep_run(uint64_t at, uint64_t pages, uint32_t type)
{
    if (run_count == MAX_RUNS) {
        status('e', boot->FreePages(at, pages));
        return;
    }
    boot->SetMem((void *)(uintptr_t)at, pages * PAGE, (uint8_t)pages);
    runs[run_count].at = at;
    runs[run_count].whole = type == 0 || type == 5 || type == 6 || type == 10;
    runs[run_count++].pages = pages;
}

static void take_pages(void)
{
    static const uint64_t limits[] = {0, 4095, 4096, 65535, 0x7ffffff, 0xfffffff, ~0ULL, ~0ULL - 4095};
    uint32_t kind = (uint32_t)draw(4) == 3 ? (uint32_t)draw(5) : (uint32_t)draw(2);
    uint32_t type = any_type();
    uint64_t at = kind == 0 ? draw(~0ULL) : ANY(limits), pages = any_pages();

    if (status('P', boot->AllocatePages(kind, type, pages, &at)) != EFI_SUCCESS)
        return;
    say('a', at % PAGE);
    if (pages > 1 << 12)
        status('e', boot->FreePages(at, pages));
    else
        keep_run(at, pages, type);
}

/* Pages whose place is named: in the largest free range, and past its end. */
static void take_named_pages(void)
{
    uint64_t pages, at = look_at_map(&pages, 0), count = 1 + draw(6), place;

    if (pages < 100)
        return;
    place = at + (20 + draw(40)) * PAGE;
    if (status('N', boot->AllocatePages(2, 2, count, &place)) == EFI_SUCCESS)
        keep_run(place, count, 2);
    place = at + draw(2) * 8 + 8;
    status('N', boot->AllocatePages(2, 2, count, &place));
    place = at;
    status('N', boot->AllocatePages(2, 2, pages + (1ULL << 52), &place));
    if (run_count > 0) {
        place = runs[draw(run_count)].at;
        status('N', boot->AllocatePages(2, 2, 1, &place));
    }
}

/* Frees all, the front, the back or the middle of a run. */
static void give_pages(void)
{
    unsigned i = (unsigned)draw(run_count + 1);
    uint64_t front, count, at;

    if (i == run_count)
        return;
    front = runs[i].whole ? 0 : draw(2) * draw(runs[i].pages);
    count = runs[i].whole || draw(2) == 0 ? runs[i].pages - front : 1 + draw(runs[i].pages - front);
    at = runs[i].at + front * PAGE;
    for (uint64_t k = 0; k < count; k++)
        if (((uint8_t *)(uintptr_t)at)[k * PAGE] == 0)
            say('!', k);
    status('F', boot->FreePages(at, count));
    if (draw(3) == 0)
        status('G', boot->FreePages(at, count));
    if (front + count < runs[i].pages && run_count < MAX_RUNS) {
        runs[run_count].at = at + count * PAGE;
        runs[run_count].whole = 0;
        runs[run_count++].pages = runs[i].pages - front - count;
    }
    if (front != 0)
        runs[i].pages = front;
    else
        runs[i] = runs[--run_count];
}

static void give_no_pages(void)
{
    static const uint64_t many[] = {0, 1ULL << 51, 1ULL << 52, (1ULL << 52) + 1, (1ULL << 52) + 5,
                                    1ULL << 63, ~0ULL, ~0ULL - 1};
    static const uint64_t places[] = {0, 4096, 8, ~0ULL, ~0ULL << 12, 1ULL << 63, 0x7ffffffff000};
    uint64_t pages, at = look_at_map(&pages, 0);

    status('W', boot->FreePages(ANY(places), draw(2) == 0 ? 1 : ANY(many)));
    status('W', boot->FreePages(at, 1));
    if (run_count > 0) {
        at = runs[draw(run_count)].at;
        status('W', boot->FreePages(at, ANY(many)));
        status('W', boot->FreePages(at + 1 + draw(4095), 1));
        status('W', boot->FreePages(at, (1ULL << 52) - at / PAGE + draw(3)));
    }
    if (block_count > 0)
        status('W', boot->FreePages((uint64_t)(uintptr_t)blocks[draw(block_count)].at, 1));
}

static void map_in_short(void)
{
    EFI_MEMORY_DESCRIPTOR *none = NULL;
    UINTN size = 0, key = 0, step = 0;
    uint32_t version = 0;

    status('M', boot->GetMemoryMap(&size, none, &key, &step, &version));
    say('s', step);
    size = draw(48);
    status('M', boot->GetMemoryMap(&size, (EFI_MEMORY_DESCRIPTOR *)(void *)map, &key, NULL, NULL));
    size = 48;
    status('M', boot->GetMemoryMap(&size, none, &key, NULL, NULL));
    status('M', boot->GetMemoryMap(NULL, none, &key, NULL, NULL));
}

static EFI_GUID any_guid(void)
{
    EFI_GUID guid = test_guid;

    ((uint8_t *)&guid)[0] = (uint8_t)draw(GUIDS);
    return guid;
}

static EFI_HANDLE any_handle(void)
{
    unsigned i = (unsigned)draw(handle_count + 3);

    if (i < handle_count)
        return handles[i];
    return i == handle_count ? NULL : i == handle_count + 1 ? (EFI_HANDLE)(uintptr_t)99999 : self;
}

static void install(void)
{
    EFI_HANDLE handle = draw(2) == 0 ? NULL : any_handle();
    EFI_GUID guid = any_guid(), other = any_guid();
    EFI_HANDLE before = handle;
    EFI_STATUS returned;

    if (draw(2) == 0)
        returned = boot->InstallProtocolInterface(&handle, &guid, (uint32_t)draw(8) / 7, &interface);
    else
        returned = boot->InstallMultipleProtocolInterfaces(&handle, &guid, &interface, &other,
                                                           &interface, NULL);
    status('i', returned);
    if (returned == EFI_SUCCESS && before == NULL && handle_count < MAX_HANDLES)
        handles[handle_count++] = handle;
}

static void uninstall(void)
{
    EFI_HANDLE handle = any_handle();
    EFI_GUID guid = any_guid(), other = any_guid();
    uint32_t *it = draw(4) == 0 ? NULL : &interface;

    if (handle == self)
        return;
    if (draw(2) == 0)
        status('u', boot->UninstallProtocolInterface(handle, &guid, it));
    else
        status('v', boot->UninstallMultipleProtocolInterfaces(handle, &guid, it, &other,
                                                              &interface, NULL));
    status('x', boot->ReinstallProtocolInterface(handle, &guid, it, &interface));
}

static void open_and_close(void)
{
    static const uint32_t ways[] = {0, 1, 2, 4, 8, 16, 32, 48, 64, 3, 0xffffffff};
    EFI_OPEN_PROTOCOL_INFORMATION_ENTRY *entries;
    EFI_HANDLE handle = any_handle(), agent = any_handle(), controller = any_handle();
    EFI_GUID guid = any_guid();
    void *it = NULL;
    UINTN count = 0;

    status('o', boot->OpenProtocol(handle, &guid, &it, agent, controller, ANY(ways)));
    if (status('q', boot->OpenProtocolInformation(handle, &guid, &entries, &count)) == 0) {
        say('n', count);
        status('f', boot->FreePool(entries));
    }
    if (draw(2) == 0)
        status('c', boot->CloseProtocol(handle, &guid, agent, controller));
    status('h', boot->HandleProtocol(any_handle(), &guid, &it));
}

static void look_up(void)
{
    EFI_HANDLE list[4], *all;
    EFI_GUID guid = any_guid(), **guids;
    UINTN size = 8 * draw(5), count = 0;
    void *it = NULL;

    if (status('l', boot->LocateHandle((uint32_t)draw(4), &guid, NULL, &size, list)) == 5)
        say('n', size);
    if (status('b', boot->LocateHandleBuffer((uint32_t)draw(4), &guid, NULL, &count, &all)) == 0) {
        say('n', count);
        status('f', boot->FreePool(all));
    }
    if (status('t', boot->ProtocolsPerHandle(any_handle(), &guids, &count)) == 0) {
        say('n', count);
        status('f', boot->FreePool(guids));
    }
    status('j', boot->LocateProtocol(&guid, draw(2) == 0 ? NULL : (void *)(uintptr_t)77, &it));
}

static void seed(void)
{
    EFI_LOADED_IMAGE_PROTOCOL *loaded;
    const CHAR16 *text;

    boot->HandleProtocol(self, &loaded_guid, (void **)&loaded);
    state = 88172645463325252ULL;
    for (text = loaded->LoadOptions; *text != 0; text++)
        state = (state ^ *text) * 0x100000001b3ULL + 1;
}

static EFI_STATUS application(void)
{
    static void (*const calls[])(void) = {
        take_block, take_block, give_block,   give_block,    give_no_block, take_pages,
        take_pages, give_pages, give_pages,   give_no_pages, map_in_short,  take_named_pages,
        install,    uninstall,  open_and_close, look_up};
    uint64_t pages;

    seed();
    look_at_map(&pages, 0);
    for (unsigned i = 0; i < CALLS; i++) {
        ANY(calls)();
        if (draw(10) == 0)
            look_at_map(&pages, 1);
    }
    while (block_count > 0)
        status('f', boot->FreePool(blocks[--block_count].at));
    while (run_count > 0) {
        run_count--;
        status('F', boot->FreePages(runs[run_count].at, runs[run_count].pages));
    }
    look_at_map(&pages, 1);
    end_line();
    status('X', boot->ExitBootServices(self, last_key - 1));
    status('X', boot->ExitBootServices(self, last_key));
    return EFI_SUCCESS;
}
