/* Has a file read, whose bytes go past the end of the block. */
#include "app.h"

static const CHAR16 name[] = {'\\', 'h', 'u', 'n', 'd', 'r', 'e', 'd', 0};

static EFI_STATUS application(void)
{
    EFI_LOADED_IMAGE_PROTOCOL *loaded;
    EFI_SIMPLE_FILE_SYSTEM_PROTOCOL *volume;
    EFI_FILE_PROTOCOL *root, *file;
    uint8_t *block = pool(96);
    UINTN size = 4096;

    MUST(boot->HandleProtocol(self, &loaded_guid, (void **)&loaded));
    MUST(boot->HandleProtocol(loaded->DeviceHandle, &files_guid, (void **)&volume));
    MUST(volume->OpenVolume(volume, &root));
    MUST(root->Open(root, &file, name, EFI_FILE_MODE_READ, 0));
    MUST(file->Read(file, &size, block));
    MUST(file->Close(file));
    MUST(root->Close(root));
    return boot->FreePool(block);
}
