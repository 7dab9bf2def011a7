/* A UEFI application over the library. It hands the firmware's own memory map to a core, asks both
 * for the same pages, and compares: how many entries the maps have then, and whether the places
 * that the core chooses are free in the firmware too, which is asked for them by their addresses.
 * Then it makes calls of all kinds again and again, while the firmware's timer interrupts them on
 * the same stack, and sees that all runs answer the same. */
#include "../workload.h"

#include <efi.h>

#define REQUESTS 48
#define RUNS 400
#define MAX_MAP_SIZE 32768
#define MEMORY (16u << 20)

static EFI_SYSTEM_TABLE *table;
static EFI_BOOT_SERVICES *services;
static uint64_t map[MAX_MAP_SIZE / 8];
static unsigned failed;

/* ---- What the library needs ---- */

struct block {
    bool given;
    void *start;
};

void *memcpy(void *to, const void *from, size_t size)
{
    uint8_t *put = to;
    const uint8_t *get = from;

    for (size_t at = 0; at < size; at++)
        put[at] = get[at];
    return to;
}

void *memmove(void *to, const void *from, size_t size)
{
    uint8_t *put = to;
    const uint8_t *get = from;

    if (put < get)
        return memcpy(to, from, size);
    for (size_t at = size; at > 0; at--)
        put[at - 1] = get[at - 1];
    return to;
}

void *memset(void *to, int byte, size_t size)
{
    uint8_t *put = to;

    for (size_t at = 0; at < size; at++)
        put[at] = (uint8_t)byte;
    return to;
}

/* Blocks of powers of two, from pages that the application takes before all: so the firmware's map
 * stays as it is while the core works. The 16 bytes before a block have its power; free blocks of
 * each power are a list. */
static uint8_t *unused, *unused_end;
static void *free_blocks[64];

static void take_memory(void)
{
    EFI_PHYSICAL_ADDRESS address = 0;

    if (services->AllocatePages(AllocateAnyPages, EfiLoaderData, MEMORY / 4096, &address) !=
        EFI_SUCCESS)
        return;
    unused = (uint8_t *)(uintptr_t)address;
    unused_end = unused + MEMORY;
}

struct block rattle_alloc(size_t size, size_t align)
{
    struct block block = {false, map};
    uint64_t power = 5;

    (void)align;
    while (power < 40 && ((size_t)1 << power) < size + 16)
        power++;
    if (free_blocks[power] != NULL) {
        block.start = free_blocks[power];
        free_blocks[power] = *(void **)block.start;
        block.given = true;
    } else if (((size_t)1 << power) <= (size_t)(unused_end - unused)) {
        block.start = unused + 16;
        unused += (size_t)1 << power;
        block.given = true;
        ((uint64_t *)block.start)[-2] = power;
    }
    return block;
}

void rattle_dealloc(void *start)
{
    uint64_t power = ((uint64_t *)start)[-2];

    *(void **)start = free_blocks[power];
    free_blocks[power] = start;
}

struct block rattle_realloc(void *start, size_t kept, size_t size, size_t align)
{
    struct block block = rattle_alloc(size, align);

    if (block.given) {
        memcpy(block.start, start, kept < size ? kept : size);
        rattle_dealloc(start);
    }
    return block;
}

/* ---- Text ---- */

static void say(const char *text)
{
    CHAR16 wide[2] = {0};

    for (; *text != '\0'; text++) {
        if (*text == '\n')
            say("\r");
        wide[0] = (CHAR16)*text;
        table->ConOut->OutputString(table->ConOut, wide);
    }
}

static void say_number(uint64_t number)
{
    char digit[2] = {(char)('0' + number % 10), '\0'};

    if (number >= 10)
        say_number(number / 10);
    say(digit);
}

static void expect(bool holds, const char *what)
{
    if (holds)
        return;
    failed++;
    say("not so: ");
    say(what);
    say("\n");
}

/* ---- The comparison ---- */

/* Gets the firmware's map, and gives how many bytes it has; *step is the size of a descriptor. */
static UINTN get_map(UINTN *step)
{
    UINTN size = sizeof map, key = 0;
    UINT32 version = 0;

    if (services->GetMemoryMap(&size, (EFI_MEMORY_DESCRIPTOR *)map, &key, step, &version) !=
        EFI_SUCCESS)
        return 0;
    return size;
}

/* How many entries the firmware's map has where those that touch and are alike are one. */
static uint64_t count_entries(void)
{
    struct rafkudin *core = NULL;
    UINTN step = 0, size = get_map(&step);
    uint64_t count = 0;

    if (RafkudinMake((const uint8_t *)map, size, step, 1, NULL, 0, &core) == RAFKUDIN_SUCCESS)
        count = RafkudinDescriptors(core);
    RafkudinFree(core);
    return count;
}

/* Asks the core for pages, and the firmware whether they are free: it gets them at their address.
 * */
static void place(struct rafkudin *core, EFI_PHYSICAL_ADDRESS *address, uint32_t type, UINTN pages)
{
    uint64_t placed = 0;

    expect(RafkudinAllocatePages(core, RAFKUDIN_ANY_PAGES, type, pages, &placed) ==
               RAFKUDIN_SUCCESS,
           "the core places pages");
    *address = placed;
    expect(services->AllocatePages(AllocateAddress, (EFI_MEMORY_TYPE)type, pages, address) ==
               EFI_SUCCESS,
           "the firmware has the core's place free");
}

/* Places pages in the core's places, and then as the firmware would; each time all are freed. */
static void compare_places(void)
{
    static EFI_PHYSICAL_ADDRESS addresses[REQUESTS];
    struct rafkudin *core = NULL;
    UINTN step = 0, size = get_map(&step);
    uint64_t first = count_entries(), here, there;

    expect(RafkudinMake((const uint8_t *)map, size, step, 1, NULL, 0, &core) == RAFKUDIN_SUCCESS,
           "the firmware's map makes a core");
    if (core == NULL)
        return;
    for (uint32_t at = 0; at < REQUESTS; at++)
        place(core, &addresses[at], 1 + at % 4, 1 + 3 * (at % 7));
    here = count_entries();
    for (uint32_t at = 0; at < REQUESTS; at++)
        services->FreePages(addresses[at], 1 + 3 * (at % 7));
    for (uint32_t at = 0; at < REQUESTS; at++)
        services->AllocatePages(AllocateAnyPages, (EFI_MEMORY_TYPE)(1 + at % 4), 1 + 3 * (at % 7),
                                &addresses[at]);
    there = count_entries();
    for (uint32_t at = 0; at < REQUESTS; at++)
        services->FreePages(addresses[at], 1 + 3 * (at % 7));
    RafkudinFree(core);
    say("entries before: ");
    say_number(first);
    say(", with the core's places: ");
    say_number(here);
    say(", with the firmware's: ");
    say_number(there);
    say("\n");
    expect(here != 0 && here <= there, "the core's places leave no more entries");
}

static void run_interrupted(void)
{
    uint64_t first = run_workload();

    for (unsigned at = 0; at < RUNS; at++)
        if (run_workload() != first) {
            expect(false, "all runs answer the same");
            return;
        }
    say_number(RUNS);
    say(" runs under the timer answer the same\n");
}

EFI_STATUS efi_main(EFI_HANDLE image, EFI_SYSTEM_TABLE *system)
{
    (void)image;
    table = system;
    services = system->BootServices;
    services->SetWatchdogTimer(0, 0, 0, NULL);
    take_memory();
    expect(RafkudinVersion() == RAFKUDIN_VERSION, "the header is that of the library");
    compare_places();
    run_interrupted();
    say(failed == 0 ? "efi-application: all as said\n" : "efi-application: FAILED\n");
    system->RuntimeServices->ResetSystem(EfiResetShutdown, EFI_SUCCESS, 0, NULL);
    return EFI_SUCCESS;
}
