/* Loads an image that lies beside the application. */
#ifndef EFIHOST_BESIDE_H
#define EFIHOST_BESIDE_H

#include "app.h"

static uint8_t beside_path[512];

static inline EFI_STATUS load_beside(const char *name, EFI_HANDLE *image)
{
    EFI_LOADED_IMAGE_PROTOCOL *loaded;
    EFI_DEVICE_PATH_PROTOCOL *device;
    UINTN front = 0, length = 0;
    CHAR16 *wide;

    MUST(boot->HandleProtocol(self, &loaded_guid, (void **)&loaded));
    MUST(boot->HandleProtocol(loaded->DeviceHandle, &path_guid, (void **)&device));
    while (((const uint8_t *)device)[front] != 0x7f)
        front += ((const uint8_t *)device)[front + 2];
    boot->CopyMem(beside_path, device, front);
    wide = (CHAR16 *)(void *)(beside_path + front + 4);
    wide[length++] = '\\';
    for (const char *at = name; *at != 0; at++)
        wide[length++] = (CHAR16)*at;
    wide[length++] = 0;
    beside_path[front] = beside_path[front + 1] = 4;
    beside_path[front + 2] = (uint8_t)(4 + 2 * length);
    beside_path[front + 3] = 0;
    boot->CopyMem(wide + length, "\x7f\xff\x04", 4);
    return boot->LoadImage(0, self, (EFI_DEVICE_PATH_PROTOCOL *)(void *)beside_path, NULL, 0,
                           image);
}

#endif
