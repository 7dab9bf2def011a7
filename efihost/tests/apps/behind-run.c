/* Writes behind a run of pages. */
#include "app.h"

static EFI_STATUS application(void)
{
    uint64_t at = 0;

    MUST(boot->AllocatePages(0, 4, 2, &at));
    *(volatile uint8_t *)(at + 8192) = 1;
    return boot->FreePages(at, 2);
}
