/* Opens all that its folder has by the names that it lists; makes and renames a file. */
#include "app.h"

static const CHAR16 new_name[] = {'n', 'e', 'w', 0};
static uint8_t about[2000];
static CHAR16 long_name[1400];

static EFI_STATUS open_all(EFI_FILE_PROTOCOL *root, unsigned *opened, unsigned *refused)
{
    EFI_FILE_INFO *info = (EFI_FILE_INFO *)(void *)about;
    EFI_FILE_PROTOCOL *file;

    for (;;) {
        UINTN size = sizeof about;
        EFI_STATUS status;

        MUST(root->Read(root, &size, info));
        if (size == 0)
            return EFI_SUCCESS;
        if (size != info->Size)
            return EFI_ABORTED;
        status = root->Open(root, &file, info->FileName, EFI_FILE_MODE_READ, 0);
        if (status == EFI_SUCCESS)
            MUST(file->Close(file));
        ++*(status == EFI_SUCCESS ? opened : refused);
    }
}

/* A file can't take the name of another. */
static EFI_STATUS rename(EFI_FILE_PROTOCOL *root)
{
    uint64_t mode = EFI_FILE_MODE_READ | EFI_FILE_MODE_WRITE | EFI_FILE_MODE_CREATE;
    static const EFI_GUID info_guid = {
        0x09576e92, 0x6d3f, 0x11d2, {0x8e, 0x39, 0x00, 0xa0, 0xc9, 0x69, 0x72, 0x3b}};
    EFI_FILE_INFO *info = (EFI_FILE_INFO *)(void *)about;
    EFI_FILE_PROTOCOL *file;
    UINTN size = sizeof about;

    MUST(root->Open(root, &file, new_name, mode, 0));
    MUST(file->GetInfo(file, &info_guid, &size, info));
    boot->CopyMem(info->FileName, L"PLAIN", 12);
    if (file->SetInfo(file, &info_guid, sizeof *info + 12, info) != EFI_ACCESS_DENIED)
        return EFI_ABORTED;
    boot->CopyMem(info->FileName, L"newer", 12);
    MUST(file->SetInfo(file, &info_guid, sizeof *info + 12, info));
    return file->Delete(file);
}

/* A name of many parts, of which the last is the file's; and one that is too long. */
static EFI_STATUS open_long(EFI_FILE_PROTOCOL *root)
{
    EFI_FILE_PROTOCOL *file;
    uint64_t position;

    for (unsigned i = 0; i < 1200; i++)
        long_name[i] = i % 2 == 0 ? '.' : '\\';
    boot->CopyMem(long_name + 1200, L"plain", 12);
    MUST(root->Open(root, &file, long_name, EFI_FILE_MODE_READ, 0));
    MUST(file->GetPosition(file, &position));
    MUST(file->Close(file));
    for (unsigned i = 0; i < 1399; i++)
        long_name[i] = 0x4e00;
    return root->Open(root, &file, long_name, 3 | EFI_FILE_MODE_CREATE, 0) == EFI_NOT_FOUND
               ? EFI_SUCCESS
               : EFI_ABORTED;
}

static EFI_STATUS application(void)
{
    EFI_LOADED_IMAGE_PROTOCOL *loaded;
    EFI_SIMPLE_FILE_SYSTEM_PROTOCOL *volume;
    EFI_FILE_PROTOCOL *root;
    unsigned opened = 0, refused = 0;

    MUST(boot->HandleProtocol(self, &loaded_guid, (void **)&loaded));
    MUST(boot->HandleProtocol(loaded->DeviceHandle, &files_guid, (void **)&volume));
    MUST(volume->OpenVolume(volume, &root));
    MUST(open_all(root, &opened, &refused));
    MUST(open_long(root));
    MUST(rename(root));
    MUST(root->Close(root));
    if (opened != 4 || refused != 1)
        return EFI_ABORTED;
    print("odd files are right\r\n");
    return EFI_SUCCESS;
}
