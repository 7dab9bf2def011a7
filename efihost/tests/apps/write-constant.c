/* Writes to its own read-only data. */
#include "app.h"

static EFI_STATUS application(void)
{
    volatile uint8_t *constant = (volatile uint8_t *)(uintptr_t)&test_guid;

    *constant = 1;
    return EFI_SUCCESS;
}
