/* A driver whose protocol has a function that takes a block, which its caller frees. With the option
 * 'k' it keeps a block of its own when it is unloaded. */
#include "app.h"

static EFI_HANDLE place;

static void *EFIAPI make_block(void)
{
    return pool(100);
}

static void *(EFIAPI *interface)(void) = make_block;

static EFI_STATUS EFIAPI unload(EFI_HANDLE image)
{
    (void)image;
    return boot->UninstallProtocolInterface(place, &test_guid, &interface);
}

static EFI_STATUS application(void)
{
    EFI_LOADED_IMAGE_PROTOCOL *loaded;

    MUST(boot->HandleProtocol(self, &loaded_guid, (void **)&loaded));
    if (*(const char *)loaded->LoadOptions == 'k')
        pool(24);
    loaded->Unload = unload;
    return boot->InstallProtocolInterface(&place, &test_guid, 0, &interface);
}
