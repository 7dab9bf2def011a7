/* Reads address 8, by a null pointer. */
#include "app.h"

static EFI_STATUS application(void)
{
    const volatile uint64_t *nothing = (const volatile uint64_t *)8;

    return *nothing;
}
