/* Calls a service after the boot services have ended. */
#include "loader.h"

static EFI_STATUS application(void)
{
    UINTN key;
    void *block;

    MUST(get_key(&key));
    MUST(boot->ExitBootServices(self, key));
    return boot->AllocatePool(4, 10, &block) == EFI_UNSUPPORTED ? EFI_SUCCESS : EFI_ABORTED;
}
