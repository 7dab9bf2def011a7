/* Reads pages after they are freed. */
#include "app.h"

static EFI_STATUS application(void)
{
    uint64_t at = 0;

    MUST(boot->AllocatePages(0, 4, 2, &at));
    *(volatile uint8_t *)at = 1;
    MUST(boot->FreePages(at, 2));
    return *(volatile uint8_t *)(at + 4096) == 77 ? EFI_ABORTED : EFI_SUCCESS;
}
