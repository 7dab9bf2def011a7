/* Ends the boot services with the map's key, which an event changes that the call signals; with the
 * next key, after which a timer's notification takes pages; and then with the right one. */
#include "loader.h"

static const EFI_GUID before_exit = {
    0x8be0e274, 0x3970, 0x4b44, {0x80, 0xc5, 0x1a, 0xb9, 0x50, 0x2f, 0x3b, 0xfc}};

static void EFIAPI take_pages(EFI_EVENT event, void *context)
{
    uint64_t at = 0;

    (void)event;
    (void)context;
    boot->AllocatePages(0, 4, 1, &at);
}

static EFI_STATUS application(void)
{
    EFI_EVENT timer, event;
    UINTN key;

    MUST(boot->CreateEvent(EVT_TIMER | EVT_NOTIFY_SIGNAL, TPL_CALLBACK, take_pages, NULL, &timer));
    MUST(boot->CreateEventEx(EVT_NOTIFY_SIGNAL, TPL_CALLBACK, take_pages, NULL, &before_exit, &event));
    for (unsigned i = 0; i < 2; i++) {
        if (i == 1)
            MUST(boot->SetTimer(timer, 2, 10));
        MUST(get_key(&key));
        MUST(boot->Stall(1000));
        if (boot->ExitBootServices(self, key) != EFI_INVALID_PARAMETER)
            return EFI_ABORTED;
    }
    MUST(get_key(&key));
    return boot->ExitBootServices(self, key);
}
