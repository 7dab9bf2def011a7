/* Loads exits.efi from its own device and starts it; and loads what is no image. */
#include "app.h"

static const CHAR16 name[] = {'\\', 'e', 'x', 'i', 't', 's', '.', 'e', 'f', 'i', 0};

static EFI_STATUS application(void)
{
    EFI_LOADED_IMAGE_PROTOCOL *loaded;
    EFI_DEVICE_PATH_PROTOCOL *path;
    uint8_t *whole, *to;
    EFI_HANDLE image;
    UINTN length = 0;

    MUST(boot->HandleProtocol(self, &loaded_guid, (void **)&loaded));
    MUST(boot->HandleProtocol(loaded->DeviceHandle, &path_guid, (void **)&path));
    for (const uint8_t *node = (const uint8_t *)path; node[0] != 0x7f; node += node[2])
        length += node[2];
    whole = pool(length + 4 + sizeof name + 4);
    boot->CopyMem(whole, path, length);
    to = whole + length;
    to[0] = to[1] = 4;
    to[2] = 4 + sizeof name;
    to[3] = 0;
    boot->CopyMem(to + 4, name, sizeof name);
    boot->CopyMem(to + 4 + sizeof name, "\x7f\xff\x04", 4);
    MUST(boot->LoadImage(0, self, (EFI_DEVICE_PATH_PROTOCOL *)(void *)whole, NULL, 0, &image));
    MUST(boot->StartImage(image, NULL, NULL));
    if (boot->LoadImage(0, self, NULL, whole, length, &image) != EFI_UNSUPPORTED)
        return EFI_ABORTED;
    MUST(boot->FreePool(whole));
    print("images are right\r\n");
    return EFI_SUCCESS;
}
