/* Divides by zero. */
#include "app.h"

static EFI_STATUS application(void)
{
    volatile int zero = 0;

    return (EFI_STATUS)(7 / zero);
}
