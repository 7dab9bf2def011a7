/* Writes a block of a disk and reads it back, where the disk is not for reading alone. */
#include "app.h"

static const EFI_GUID disk_guid = {
    0x964e5b21, 0x6459, 0x11d2, {0x8e, 0x39, 0x00, 0xa0, 0xc9, 0x69, 0x72, 0x3b}};
static uint8_t block[512];

static EFI_STATUS application(void)
{
    EFI_BLOCK_IO_PROTOCOL *disk;

    MUST(boot->LocateProtocol(&disk_guid, NULL, (void **)&disk));
    if (disk->Media->ReadOnly) {
        if (disk->WriteBlocks(disk, disk->Media->MediaId, 1, 512, block) != EFI_WRITE_PROTECTED)
            return EFI_ABORTED;
        print("for reading\r\n");
        return disk->ReadBlocks(disk, disk->Media->MediaId, 1, 512, block);
    }
    boot->SetMem(block, 512, 'w');
    MUST(disk->WriteBlocks(disk, disk->Media->MediaId, 1, 512, block));
    boot->SetMem(block, 512, 0);
    MUST(disk->ReadBlocks(disk, disk->Media->MediaId, 1, 512, block));
    MUST(disk->FlushBlocks(disk));
    print(block[511] == 'w' ? "written\r\n" : "lost\r\n");
    return disk->ReadBlocks(disk, disk->Media->MediaId, disk->Media->LastBlock + 1, 512, block) ==
                   EFI_INVALID_PARAMETER
               ? EFI_SUCCESS
               : EFI_ABORTED;
}
