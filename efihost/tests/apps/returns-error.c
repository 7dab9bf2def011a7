/* Returns an error. */
#include "app.h"

static EFI_STATUS application(void)
{
    print("no\r\n");
    return EFI_NOT_FOUND;
}
