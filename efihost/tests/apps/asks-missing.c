/* Asks for what is not there, twice. */
#include "app.h"

static EFI_STATUS application(void)
{
    BOOLEAN is;
    EFI_TIME time;
    void *it;

    for (unsigned i = 0; i < 2; i++) {
        if (table->RuntimeServices->GetWakeupTime(&is, &is, &time) != EFI_UNSUPPORTED ||
            boot->LocateProtocol(&test_guid, NULL, &it) != EFI_NOT_FOUND)
            return EFI_ABORTED;
    }
    return EFI_SUCCESS;
}
