/* Ends the boot services with a key that is old, and then with the map's. */
#include "loader.h"

static EFI_STATUS application(void)
{
    uint64_t at = 0;
    UINTN key;

    MUST(get_key(&key));
    MUST(boot->AllocatePages(0, 2, 1, &at));
    if (boot->ExitBootServices(self, key) == EFI_SUCCESS)
        return EFI_ABORTED;
    MUST(get_key(&key));
    return boot->ExitBootServices(self, key);
}
