/* Starts an image that prints a text that is no memory. */
#include "app.h"

static const uint8_t node[] = {4, 4, 46, 0};
static const CHAR16 name[] = {'\\', 'n', 'u', 'l', 'l', '-', 't', 'o', '-', 'c', 'o',
                              'n', 's', 'o', 'l', 'e', '.', 'e', 'f', 'i', 0};
static uint8_t path[256];

static EFI_STATUS application(void)
{
    EFI_LOADED_IMAGE_PROTOCOL *loaded;
    EFI_DEVICE_PATH_PROTOCOL *device;
    EFI_HANDLE image;
    UINTN front = 0;

    MUST(boot->HandleProtocol(self, &loaded_guid, (void **)&loaded));
    MUST(boot->HandleProtocol(loaded->DeviceHandle, &path_guid, (void **)&device));
    while (((const uint8_t *)device)[front] != 0x7f)
        front += ((const uint8_t *)device)[front + 2];
    boot->CopyMem(path, device, front);
    boot->CopyMem(path + front, node, 4);
    boot->CopyMem(path + front + 4, name, sizeof name);
    boot->CopyMem(path + front + 4 + sizeof name, "\x7f\xff\x04", 4);
    MUST(boot->LoadImage(0, self, (EFI_DEVICE_PATH_PROTOCOL *)(void *)path, NULL, 0, &image));
    return boot->StartImage(image, NULL, NULL);
}
