/* The memory services, for images and for the host itself. */
#include "host.h"

#include <string.h>

#define ALL_PAGES (1ULL << 52)
#define GRANULE 16U /* pages */

static struct origin map_change;
static EFI_TPL map_change_level;

static struct origin change_map(struct origin origin)
{
    map_change_level = host.tpl;
    return map_change = origin;
}

/* What may have changed the map last, and its task priority level. */
struct origin last_map_change(EFI_TPL *level)
{
    *level = map_change_level;
    return map_change;
}

/* Without a check nothing is kept: who made what is for reports alone. */
static void keep_run(uint64_t at, uint64_t pages, uint32_t type, bool red)
{
    struct run run = {at, pages, type, red, red, {0}};

    if (!host.checks)
        return;
    if (in_granules(type))
        run.pages = (pages + GRANULE - 1) / GRANULE * GRANULE;
    run.origin = change_map(origin_now());
    ledger_add_run(&run);
    open_memory(run.at, run.pages * PAGE);
}

/* ---- Red pages: one on each side of a run, placed with it and shut ---- */

static uint64_t given_back;

/* How many changes of the map's key are those of red pages that were given back. The caller's key
 * does not count them, so that it is that of a run without a check. */
uint64_t red_changes(void)
{
    return given_back;
}

static bool gives_back(bool *red, uint64_t at)
{
    if (!*red || core_free_pages(at, 1) != EFI_SUCCESS)
        return false;
    given_back++;
    *red = false;
    return true;
}

struct pages {
    uint64_t at, end;
    bool any;
};

/* Gives the red pages of a run back that are among these. */
static void give_some(struct run *run, void *context)
{
    struct pages *among = context;
    uint64_t before = run->at - PAGE, behind = run->at + run->pages * PAGE;

    if (before >= among->at && before < among->end)
        among->any |= gives_back(&run->red_before, before);
    if (behind >= among->at && behind < among->end)
        among->any |= gives_back(&run->red_behind, behind);
}

/* Gives all red pages back, so that no request is refused for them. False where there are none. */
bool give_red_pages(void)
{
    struct pages all = {0, UINT64_MAX, false};

    ledger_each_run(give_some, &all);
    return all.any;
}

/* Gives those back that alone keep these pages from being free. */
static bool give_red_among(uint64_t at, uint64_t pages)
{
    struct pages among = {at, at + pages * PAGE, false};
    uint64_t start, size;

    if (at % PAGE != 0 || pages >= ALL_PAGES - at / PAGE)
        return false;
    for (uint64_t next = at; next < among.end;) {
        if (conventional_range(next, &start, &size))
            next = start + size;
        else if (ledger_run_beside(next) != NULL)
            next += PAGE;
        else
            return false;
    }
    ledger_each_run(give_some, &among);
    return among.any;
}

/* With --check a run has red pages, where its place is the core's to choose and there is room. */
static bool red_pages(uint32_t kind, uint32_t type, uint64_t pages, uint64_t *at)
{
    uint64_t start = *at;

    if (!host.checks || kind > RAFKUDIN_MAX_ADDRESS || pages == 0 || pages > ALL_PAGES ||
        in_granules(type) || core_pages(kind, type, pages + 2, &start) != EFI_SUCCESS)
        return false;
    *at = start + PAGE;
    shut_memory(start, (pages + 2) * PAGE);
    keep_run(*at, pages, type, true);
    return true;
}

/* Pages with nothing around them. */
EFI_STATUS host_plain_pages(uint32_t kind, uint32_t type, uint64_t pages, uint64_t *at)
{
    EFI_STATUS status = core_pages(kind, type, pages, at);

    if (host.checks &&
        ((status == EFI_OUT_OF_RESOURCES && give_red_pages()) ||
         (status == EFI_NOT_FOUND && kind == RAFKUDIN_AT_ADDRESS && give_red_among(*at, pages))))
        status = core_pages(kind, type, pages, at);
    if (status == EFI_SUCCESS)
        keep_run(*at, pages, type, false);
    return status;
}

EFI_STATUS host_pages(uint32_t kind, uint32_t type, uint64_t pages, uint64_t *at)
{
    return red_pages(kind, type, pages, at) ? EFI_SUCCESS
                                            : host_plain_pages(kind, type, pages, at);
}

/* The place that the core has for an address in a pool block. */
static uint64_t core_address(uint64_t at)
{
    struct block *block = in_pieces(at) ? ledger_block_around(at) : NULL;

    return block == NULL ? at : block->core_at + (at - block->at);
}

/* Where the pages begin and end that are freed with those from `at` to `end`: red ones, and the rest
 * of a granule. */
static uint64_t freed_start(const struct run *run, uint64_t at)
{
    if (run != NULL && in_granules(run->type))
        return at / (GRANULE * PAGE) * (GRANULE * PAGE);
    return run != NULL && run->red_before && at == run->at ? at - PAGE : at;
}

static uint64_t freed_end(const struct run *run, uint64_t end)
{
    if (run != NULL && in_granules(run->type))
        return (end + GRANULE * PAGE - 1) / (GRANULE * PAGE) * (GRANULE * PAGE);
    return run != NULL && run->red_behind && end == run->at + run->pages * PAGE ? end + PAGE : end;
}

/* A red page itself is not the caller's. */
EFI_STATUS host_free_pages(uint64_t at, uint64_t pages)
{
    uint64_t start, end;
    struct run *run;
    struct origin made;
    EFI_STATUS status;

    at = core_address(at);
    if (!host.checks || pages == 0 || at % PAGE != 0 || pages >= ALL_PAGES - at / PAGE) {
        status = core_free_pages(at, pages);
        if (status == EFI_SUCCESS)
            open_memory(at, pages * PAGE);
        return status;
    }
    if (ledger_red_among(at, pages))
        return EFI_NOT_FOUND;
    run = ledger_run_with(at);
    made = run == NULL ? origin_now() : run->origin;
    start = freed_start(run, at);
    end = at + pages * PAGE;
    end = freed_end(ledger_run_with(end - 1), end);
    status = core_free_pages(start, (end - start) / PAGE);
    if (status != EFI_SUCCESS)
        return status;
    change_map(origin_without_callers());
    ledger_cut_runs(start, (end - start) / PAGE);
    shut_memory(start, end - start);
    ledger_add_freed(at, pages, made);
    return status;
}

/* ---- The pool ---- */

/* With --check a block lies where there is room around it, and not where the core has its own. */
static void keep_block(struct block *made, void **block)
{
    made->executable = made->type == RAFKUDIN_LOADER_CODE ||
                       made->type == RAFKUDIN_BOOT_SERVICES_CODE ||
                       made->type == RAFKUDIN_RUNTIME_SERVICES_CODE;
    made->origin = change_map(origin_now());
    zone_make(made);
    ledger_add_block(made);
    *block = POINTER(made->at);
}

EFI_STATUS host_pool(uint32_t type, uint64_t size, void **block)
{
    struct block made = {.size = size, .type = type};
    EFI_STATUS status;

    if (!host.checks)
        return core_pool(type, size, (uint64_t *)block);
    status = core_pool(type, size, &made.core_at);
    if (status == EFI_OUT_OF_RESOURCES && give_red_pages())
        status = core_pool(type, size, &made.core_at);
    if (status == EFI_SUCCESS)
        keep_block(&made, block);
    return status;
}

EFI_STATUS host_free_pool(void *address)
{
    struct block *block;
    EFI_STATUS status;

    if (!host.checks)
        return core_free_pool(NUMBER(address));
    block = ledger_block(NUMBER(address));
    if (block == NULL)
        return EFI_INVALID_PARAMETER;
    zone_look(block, NULL);
    status = core_free_pool(block->core_at);
    if (status != EFI_SUCCESS)
        return status;
    block->freed = change_map(origin_without_callers());
    if (block->room == 0)
        ledger_drop_block(block);
    else
        hold_back(block);
    return status;
}

/* Makes a block that the core filled the caller's: its bytes go to where its address says, if they
 * are not there. */
EFI_STATUS host_adopt_block(uint64_t core_at, uint64_t size, void **block)
{
    struct block made = {.size = size, .type = RAFKUDIN_BOOT_SERVICES_DATA, .core_at = core_at};

    *block = POINTER(core_at);
    note_type(core_at, size, made.type);
    if (host.checks)
        keep_block(&made, block);
    if (!host.over_memory)
        core_read(core_at, *block, size);
    return EFI_SUCCESS;
}

/* A block that an image hands on is its own no longer: it is the caller's of the service that is under
 * way, or the host's. */
void give_block(const void *block, const struct image *from, bool to_caller)
{
    struct block *it = host.checks ? ledger_block(NUMBER(block)) : NULL;

    if (it != NULL && it->origin.image == from)
        it->origin = to_caller ? origin_now() : (struct origin){0};
}

/* A block of the host itself in the machine's memory, all zero, or NULL. */
void *try_machine_block(uint64_t size)
{
    struct call *call = host.call;
    void *block = NULL;
    EFI_STATUS status;

    host.call = NULL;
    status = host_pool(RAFKUDIN_BOOT_SERVICES_DATA, size, &block);
    host.call = call;
    return status == EFI_SUCCESS ? memset(block, 0, size) : NULL;
}

void *machine_block(uint64_t size)
{
    void *block = try_machine_block(size);

    if (block == NULL)
        refuse("the machine has no memory for the host's own tables");
    return block;
}

/* A copy in the machine's memory that images may write. Device paths are such copies: EDK2's library
 * marks the end of an instance in place, and takes the mark back. */
void *machine_copy(const void *bytes, size_t size)
{
    return memcpy(machine_block(size), bytes, size);
}

void free_machine_block(void *block)
{
    struct call *call = host.call;

    if (block == NULL)
        return;
    host.call = NULL;
    host_free_pool(block);
    host.call = call;
}

/* Reads, and writes with what it has, a byte of each page of a buffer before the system or the C
 * library is handed it. An access to what is not the caller's is seen so, which the system only
 * refuses; and no function of the C library is under way then, so that the run can end in order. A
 * sanitizer would look elsewhere first. */
__attribute__((no_sanitize_address)) void touch(const void *bytes, size_t count, bool write)
{
    volatile uint8_t *at = POINTER(NUMBER(bytes));

    for (size_t i = 0; i < count; i += PAGE - NUMBER(at + i) % PAGE) {
        uint8_t byte = at[i];

        if (write)
            at[i] = byte;
    }
}

static EFI_STATUS EFIAPI AllocatePages(uint32_t kind, uint32_t type, UINTN pages, uint64_t *memory)
{
    SERVICE("AllocatePages", kind, type, pages, memory == NULL ? 0 : *memory);
    uint64_t at;
    EFI_STATUS status;

    if (memory == NULL)
        ANSWER(EFI_INVALID_PARAMETER);
    at = *memory;
    status = host_pages(kind, type, pages, &at);
    if (status == EFI_SUCCESS)
        *memory = at;
    ANSWER(status);
}

static EFI_STATUS EFIAPI FreePages(uint64_t memory, UINTN pages)
{
    SERVICE("FreePages", memory, pages);
    EFI_STATUS status = host_free_pages(memory, pages);

    if (status != EFI_SUCCESS && status != EFI_UNSUPPORTED) {
        struct origin origin = origin_now();

        found(FREE_NOT_LIVE, &origin, "FreePages of %lu pages at 0x%lx, which are not all placed",
              pages, memory);
    }
    ANSWER(status);
}

static EFI_STATUS EFIAPI GetMemoryMap(UINTN *size, EFI_MEMORY_DESCRIPTOR *map, UINTN *key,
                                      UINTN *step, uint32_t *version)
{
    SERVICE("GetMemoryMap", size == NULL ? 0 : *size, NUMBER(map));
    EFI_STATUS status;

    if (size == NULL)
        ANSWER(EFI_INVALID_PARAMETER);
    status = core_map(size, map, key, step, version);
    if (status == EFI_SUCCESS && key != NULL)
        *key -= red_changes();
    ANSWER(status);
}

static EFI_STATUS EFIAPI AllocatePool(uint32_t type, UINTN size, void **block)
{
    SERVICE("AllocatePool", type, size);

    if (block == NULL)
        ANSWER(EFI_INVALID_PARAMETER);
    ANSWER(host_pool(type, size, block));
}

static void found_bad_free(void *block)
{
    struct origin origin = origin_now();
    struct block *gone = ledger_gone_block(NUMBER(block));

    if (gone != NULL)
        found_with(FREE_NOT_LIVE, &origin, &gone->origin,
                   "FreePool of 0x%lx, a block of %lu bytes that %s freed; made by %s",
                   NUMBER(block), gone->size, origin_text(&gone->freed),
                   origin_text(&gone->origin));
    else if (block == NULL)
        found(FREE_NOT_LIVE, &origin, "FreePool of a null pointer");
    else
        found(FREE_NOT_LIVE, &origin, "FreePool of 0x%lx, where no block begins", NUMBER(block));
}

static EFI_STATUS EFIAPI FreePool(void *block)
{
    SERVICE("FreePool", NUMBER(block));
    EFI_STATUS status = host_free_pool(block);

    if (status != EFI_SUCCESS && status != EFI_UNSUPPORTED)
        found_bad_free(block);
    ANSWER(status);
}

void fill_memory_services(EFI_BOOT_SERVICES *boot)
{
    boot->AllocatePages = AllocatePages;
    boot->FreePages = FreePages;
    boot->GetMemoryMap = GetMemoryMap;
    boot->AllocatePool = AllocatePool;
    boot->FreePool = FreePool;
}
