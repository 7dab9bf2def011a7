/* Reads before a run of pages. */
#include "app.h"

static EFI_STATUS application(void)
{
    uint64_t at = 0;

    MUST(boot->AllocatePages(0, 4, 2, &at));
    if (*(volatile uint8_t *)(at - 1) == 77)
        return EFI_ABORTED;
    return boot->FreePages(at, 2);
}
