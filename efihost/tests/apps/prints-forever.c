/* Prints, and never ends. */
#include "app.h"

static EFI_STATUS application(void)
{
    for (;;)
        print("once more\r\n");
}
