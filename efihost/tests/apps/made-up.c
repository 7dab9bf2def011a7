/* Hands made-up events, files, volumes, disks and notifications to services, which refuse them. */
#include "app.h"

static const EFI_GUID text_in_ex_guid = {
    0xdd9e7534, 0x7762, 0x4698, {0x8c, 0x14, 0xf5, 0x85, 0x17, 0xa6, 0x25, 0xaa}};
static const EFI_GUID disk_guid = {
    0x964e5b21, 0x6459, 0x11d2, {0x8e, 0x39, 0x00, 0xa0, 0xc9, 0x69, 0x72, 0x3b}};
static const CHAR16 name[] = {'m', 'a', 'd', 'e', '-', 'u', 'p', '.', 'e', 'f', 'i', 0};

#define REFUSED(call)                                                                             \
    do {                                                                                          \
        if ((call) != EFI_INVALID_PARAMETER) {                                                    \
            print("not refused: " #call "\r\n");                                                  \
            return EFI_ABORTED;                                                                   \
        }                                                                                         \
    } while (0)

static EFI_STATUS events(void)
{
    static uint8_t bytes[256];
    EFI_SIMPLE_TEXT_INPUT_EX_PROTOCOL *keys;
    void *made_up[] = {NULL, (void *)1, (void *)16, bytes, (void *)efi_main,
                       (void *)0xffffffffffffffffULL};
    UINTN index;
    void *key;

    MUST(boot->LocateProtocol(&text_in_ex_guid, NULL, (void **)&keys));
    for (unsigned i = 0; i < sizeof made_up / sizeof *made_up; i++) {
        REFUSED(boot->CloseEvent(made_up[i]));
        REFUSED(boot->SignalEvent(made_up[i]));
        REFUSED(boot->CheckEvent(made_up[i]));
        REFUSED(boot->SetTimer(made_up[i], TIMER_RELATIVE, 1));
        REFUSED(boot->WaitForEvent(1, &made_up[i], &index));
        REFUSED(boot->RegisterProtocolNotify(&test_guid, made_up[i], &key));
        REFUSED(keys->UnregisterKeyNotify(keys, made_up[i]));
    }
    REFUSED(boot->CloseEvent(keys->WaitForKeyEx));
    return EFI_SUCCESS;
}

static EFI_STATUS files(void)
{
    EFI_SIMPLE_FILE_SYSTEM_PROTOCOL *volume, other_volume;
    EFI_FILE_PROTOCOL *root, *file, other;
    uint8_t bytes[512];
    uint64_t position;
    UINTN size = sizeof bytes;

    MUST(boot->LocateProtocol(&files_guid, NULL, (void **)&volume));
    MUST(volume->OpenVolume(volume, &root));
    other_volume = *volume;
    other = *root;
    REFUSED(other_volume.OpenVolume(&other_volume, &file));
    REFUSED(other.Open(&other, &file, name, EFI_FILE_MODE_READ, 0));
    REFUSED(other.Read(&other, &size, bytes));
    REFUSED(other.Write(&other, &size, bytes));
    REFUSED(other.GetPosition(&other, &position));
    REFUSED(other.SetPosition(&other, 0));
    REFUSED(other.GetInfo(&other, &test_guid, &size, bytes));
    REFUSED(other.SetInfo(&other, &test_guid, size, bytes));
    REFUSED(other.Flush(&other));
    REFUSED(other.Delete(&other));
    REFUSED(other.Close(&other));
    REFUSED(other.Close(NULL));
    return root->Close(root);
}

/* A name without an end is none. */
static EFI_STATUS names(void)
{
    static const EFI_GUID info_guid = {
        0x09576e92, 0x6d3f, 0x11d2, {0x8e, 0x39, 0x00, 0xa0, 0xc9, 0x69, 0x72, 0x3b}};
    EFI_SIMPLE_FILE_SYSTEM_PROTOCOL *volume;
    EFI_FILE_PROTOCOL *root, *file;
    EFI_FILE_INFO *info = (void *)pool(sizeof *info + 8);

    MUST(boot->LocateProtocol(&files_guid, NULL, (void **)&volume));
    MUST(volume->OpenVolume(volume, &root));
    MUST(root->Open(root, &file, name, EFI_FILE_MODE_READ, 0));
    boot->SetMem(info, sizeof *info + 8, 'x');
    if (file->SetInfo(file, &info_guid, sizeof *info + 8, info) != EFI_BAD_BUFFER_SIZE)
        return EFI_ABORTED;
    MUST(boot->FreePool(info));
    MUST(file->Close(file));
    return root->Close(root);
}

static EFI_STATUS disks(void)
{
    static uint8_t sector[512];
    EFI_BLOCK_IO_PROTOCOL *disk, other;

    MUST(boot->LocateProtocol(&disk_guid, NULL, (void **)&disk));
    other = *disk;
    REFUSED(other.ReadBlocks(&other, 1, 0, sizeof sector, sector));
    REFUSED(other.WriteBlocks(&other, 1, 0, sizeof sector, sector));
    REFUSED(other.FlushBlocks(&other));
    return EFI_SUCCESS;
}

static EFI_STATUS application(void)
{
    MUST(events());
    MUST(files());
    MUST(names());
    MUST(disks());
    print("all is refused\r\n");
    return EFI_SUCCESS;
}
