/* Never ends. */
#include "app.h"

static EFI_STATUS application(void)
{
    for (;;)
        __asm__ volatile("pause");
}
