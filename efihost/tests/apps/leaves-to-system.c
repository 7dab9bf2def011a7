/* Ends the boot services with things that it leaves to the system, which is right. */
#include "loader.h"

static uint32_t interface;

static EFI_STATUS application(void)
{
    EFI_HANDLE handle = NULL;
    EFI_EVENT event;
    uint64_t pages;
    void *it;
    UINTN key;

    pool(40);
    pool(60);
    MUST(boot->AllocatePages(0, 2, 3, &pages));
    MUST(boot->CreateEvent(0, 0, NULL, NULL, &event));
    MUST(boot->InstallProtocolInterface(&handle, &test_guid, 0, &interface));
    MUST(boot->OpenProtocol(handle, &test_guid, &it, self, NULL, 0x20));
    MUST(get_key(&key));
    MUST(boot->ExitBootServices(self, key));
    __asm__ volatile("cli; hlt");
    return EFI_ABORTED;
}
