/* Loads a driver with options and unloads it, while it still has a block that the driver made for it;
 * then loads it again, which stays with its options. */
#include "beside.h"

static EFI_STATUS load_driver(char option, EFI_HANDLE *image, char **options)
{
    EFI_LOADED_IMAGE_PROTOCOL *loaded;

    MUST(load_beside("makes-blocks-driver.efi", image));
    MUST(boot->HandleProtocol(*image, &loaded_guid, (void **)&loaded));
    *options = (char *)pool(1);
    **options = option;
    loaded->LoadOptions = *options;
    loaded->LoadOptionsSize = 1;
    return boot->StartImage(*image, NULL, NULL);
}

static EFI_STATUS application(void)
{
    void *(EFIAPI **interface)(void), *block;
    EFI_HANDLE image;
    char *options;

    MUST(load_driver('k', &image, &options));
    MUST(boot->LocateProtocol(&test_guid, NULL, (void **)&interface));
    block = (*interface)();
    MUST(boot->UnloadImage(image));
    MUST(boot->FreePool(options));
    MUST(boot->FreePool(block));
    MUST(load_driver('-', &image, &options));
    print("drivers are right\r\n");
    return EFI_SUCCESS;
}
