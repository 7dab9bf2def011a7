/* Loads an image from a device that loads by itself: by LoadFile2, and as a boot option by
 * LoadFile. */
#include "app.h"

static const EFI_GUID load_file_guid = {
    0x56ec3091, 0x954c, 0x11d2, {0x8e, 0x3f, 0x00, 0xa0, 0xc9, 0x69, 0x72, 0x3b}};
static const EFI_GUID load_file2_guid = {
    0x4006c0c1, 0xfcb3, 0x403e, {0x99, 0x6d, 0x4a, 0x6c, 0x87, 0x24, 0xe0, 0x6d}};
static const CHAR16 name[] = {'\\', 'e', 'x', 'i', 't', 's', '.', 'e', 'f', 'i', 0};
static const uint8_t device[] = {1, 4, 20,   0,    1, 2, 3, 4, 5, 6, 7, 8,
                                 9, 0, 1, 2, 3, 4, 5, 6, 0x7f, 0xff, 4, 0};
static uint8_t file[65536];
static UINTN file_size = sizeof file;
static unsigned asked, asked2;

static EFI_STATUS give(UINTN *size, void *to)
{
    UINTN room = *size;

    *size = file_size;
    if (to == NULL || room < file_size)
        return EFI_BUFFER_TOO_SMALL;
    boot->CopyMem(to, file, file_size);
    return EFI_SUCCESS;
}

static EFI_STATUS EFIAPI load(EFI_LOAD_FILE_PROTOCOL *this, EFI_DEVICE_PATH_PROTOCOL *rest,
                              BOOLEAN policy, UINTN *size, void *to)
{
    (void)this;
    asked++;
    return policy && rest->Type == 0x7f ? give(size, to) : EFI_ABORTED;
}

static EFI_STATUS EFIAPI load2(EFI_LOAD_FILE_PROTOCOL *this, EFI_DEVICE_PATH_PROTOCOL *rest,
                               BOOLEAN policy, UINTN *size, void *to)
{
    (void)this;
    asked2++;
    return !policy && rest->Type == 0x7f ? give(size, to) : EFI_ABORTED;
}

static EFI_STATUS read_file(void)
{
    EFI_LOADED_IMAGE_PROTOCOL *loaded;
    EFI_SIMPLE_FILE_SYSTEM_PROTOCOL *volume;
    EFI_FILE_PROTOCOL *root, *it;

    MUST(boot->HandleProtocol(self, &loaded_guid, (void **)&loaded));
    MUST(boot->HandleProtocol(loaded->DeviceHandle, &files_guid, (void **)&volume));
    MUST(volume->OpenVolume(volume, &root));
    MUST(root->Open(root, &it, name, EFI_FILE_MODE_READ, 0));
    MUST(it->Read(it, &file_size, file));
    it->Close(it);
    return root->Close(root);
}

static EFI_STATUS run(BOOLEAN policy)
{
    EFI_DEVICE_PATH_PROTOCOL *path = (EFI_DEVICE_PATH_PROTOCOL *)(uintptr_t)device;
    EFI_HANDLE image;

    MUST(boot->LoadImage(policy, self, path, NULL, 0, &image));
    return boot->StartImage(image, NULL, NULL);
}

static EFI_STATUS application(void)
{
    static EFI_LOAD_FILE_PROTOCOL loader = {load}, loader2 = {load2};
    EFI_HANDLE handle = NULL;

    MUST(read_file());
    MUST(boot->InstallMultipleProtocolInterfaces(&handle, &path_guid, device, &load_file_guid,
                                                 &loader, &load_file2_guid, &loader2, NULL));
    MUST(run(0));
    MUST(run(1));
    MUST(boot->UninstallMultipleProtocolInterfaces(handle, &path_guid, device, &load_file_guid,
                                                   &loader, &load_file2_guid, &loader2, NULL));
    if (asked != 2 || asked2 != 2)
        return EFI_ABORTED;
    print("devices are right\r\n");
    return EFI_SUCCESS;
}
