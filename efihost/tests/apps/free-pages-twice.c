/* Frees pages twice. */
#include "app.h"

static EFI_STATUS application(void)
{
    uint64_t at = 0;

    MUST(boot->AllocatePages(0, 4, 2, &at));
    MUST(boot->FreePages(at, 2));
    boot->FreePages(at, 1);
    return EFI_SUCCESS;
}
