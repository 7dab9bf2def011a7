/* Ends with a protocol that is not uninstalled. */
#include "app.h"

static EFI_STATUS application(void)
{
    static uint32_t interface;
    EFI_HANDLE handle = NULL;

    return boot->InstallProtocolInterface(&handle, &test_guid, 0, &interface);
}
