/* Writes behind a block to where a core over memory has its list of free runs. All memory above
 * 1 MiB is taken first, so that the pool's next pages lie below addresses that no memory has. */
#include "app.h"

#define MAX_RUNS 32

static uint8_t map[65536];
static struct {
    uint64_t at, pages;
} runs[MAX_RUNS];
static unsigned run_count;

static EFI_STATUS take_memory(void)
{
    UINTN size = sizeof map, key, step;
    uint32_t version;

    MUST(boot->GetMemoryMap(&size, (EFI_MEMORY_DESCRIPTOR *)(void *)map, &key, &step, &version));
    for (UINTN i = 0; i < size && run_count < MAX_RUNS; i += step) {
        const EFI_MEMORY_DESCRIPTOR *it = (const EFI_MEMORY_DESCRIPTOR *)(const void *)(map + i);
        uint64_t at = it->PhysicalStart;

        if (it->Type != 7 || at < 0x100000)
            continue;
        MUST(boot->AllocatePages(2, 2, it->NumberOfPages, &at));
        runs[run_count].at = at;
        runs[run_count++].pages = it->NumberOfPages;
    }
    return EFI_SUCCESS;
}

static EFI_STATUS application(void)
{
    void *block, *small, *large;

    MUST(take_memory());
    MUST(boot->AllocatePool(2, 65536, &block));
    boot->SetMem((uint8_t *)block + 65536, 56, 0xff);
    MUST(boot->AllocatePool(2, 40, &small));
    MUST(boot->AllocatePool(2, 65536, &large));
    MUST(boot->FreePool(large));
    MUST(boot->FreePool(small));
    MUST(boot->FreePool(block));
    for (unsigned i = 0; i < run_count; i++)
        MUST(boot->FreePages(runs[i].at, runs[i].pages));
    return EFI_SUCCESS;
}
