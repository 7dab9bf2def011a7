/* Ends with pages that are not freed. */
#include "app.h"

static EFI_STATUS application(void)
{
    uint64_t at = 0;

    return boot->AllocatePages(0, 4, 3, &at);
}
