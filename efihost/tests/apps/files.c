/* Works with files of the device from which it comes: makes, writes, reads, lists, deletes. */
#include "app.h"

static const CHAR16 folder_name[] = {'\\', 'M', 'a', 'd', 'e', 0};
static const CHAR16 file_name[] = {'\\', 'm', 'a', 'd', 'e', '\\', 'F', '.', 't', 'x', 't', 0};
static const CHAR16 outside[] = {'\\', '.', '.', '\\', '.', '.', '\\', 'e', 't', 'c', 0};
static const CHAR16 linked[] = {'\\', 'l', 'i', 'n', 'k', 0};

static EFI_STATUS write_and_read(EFI_FILE_PROTOCOL *root)
{
    EFI_FILE_PROTOCOL *folder, *file;
    uint64_t mode = EFI_FILE_MODE_READ | EFI_FILE_MODE_WRITE;
    uint8_t info[400], text[8];
    UINTN size = 5;

    MUST(root->Open(root, &folder, folder_name, mode | EFI_FILE_MODE_CREATE, EFI_FILE_DIRECTORY));
    MUST(root->Open(root, &file, file_name, mode | EFI_FILE_MODE_CREATE, 0));
    MUST(file->Write(file, &size, "hello"));
    MUST(file->SetPosition(file, 1));
    size = sizeof text;
    MUST(file->Read(file, &size, text));
    if (size != 4 || text[0] != 'e')
        return EFI_ABORTED;
    size = sizeof info;
    MUST(folder->Read(folder, &size, info));
    if (((EFI_FILE_INFO *)(void *)info)->FileSize != 5)
        return EFI_ABORTED;
    size = sizeof info;
    MUST(folder->Read(folder, &size, info));
    if (size != 0)
        return EFI_ABORTED;
    MUST(file->Delete(file));
    return folder->Delete(folder);
}

static EFI_STATUS application(void)
{
    EFI_LOADED_IMAGE_PROTOCOL *loaded;
    EFI_SIMPLE_FILE_SYSTEM_PROTOCOL *volume;
    EFI_FILE_PROTOCOL *root, *other;

    MUST(boot->HandleProtocol(self, &loaded_guid, (void **)&loaded));
    MUST(boot->HandleProtocol(loaded->DeviceHandle, &files_guid, (void **)&volume));
    MUST(volume->OpenVolume(volume, &root));
    MUST(write_and_read(root));
    if (root->Open(root, &other, outside, EFI_FILE_MODE_READ, 0) != EFI_NOT_FOUND ||
        root->Open(root, &other, linked, EFI_FILE_MODE_READ, 0) != EFI_ACCESS_DENIED)
        return EFI_ABORTED;
    print("files are right\r\n");
    return root->Close(root);
}
