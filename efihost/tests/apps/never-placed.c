/* Writes to a page that nobody placed. */
#include "app.h"

static EFI_STATUS application(void)
{
    *(volatile uint8_t *)0x200000 = 1;
    return EFI_SUCCESS;
}
