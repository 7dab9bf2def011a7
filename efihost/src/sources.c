/* Where the bytes of an image come from that LoadImage is asked for by a path: a file of a simple
 * file system, or a device that loads by itself. Both may be an image's own code, which gets a
 * block of the machine's memory and says how much of it it filled. */
#include "host.h"

#define MAX_NAME_LENGTH 1024U

static const EFI_GUID load_file_guid = {
    0x56ec3091, 0x954c, 0x11d2, {0x8e, 0x3f, 0x00, 0xa0, 0xc9, 0x69, 0x72, 0x3b}};
static const EFI_GUID load_file2_guid = {
    0x4006c0c1, 0xfcb3, 0x403e, {0x99, 0x6d, 0x4a, 0x6c, 0x87, 0x24, 0xe0, 0x6d}};

/* The name that the file nodes of a path make, with separators between; false where another node is
 * among them. */
static bool file_name(const uint8_t *node, CHAR16 *name)
{
    size_t letters = 0;

    for (; (node[0] & 0x7f) != 0x7f; node += node[2] | node[3] << 8) {
        const CHAR16 *part = (const void *)(node + 4);

        if (node[0] != 4 || node[1] != 4)
            return false;
        if (letters > 0 && name[letters - 1] != '\\' && *part != '\\')
            name[letters++] = '\\';
        while (*part != 0 && letters < MAX_NAME_LENGTH - 2)
            name[letters++] = *part++;
    }
    name[letters] = 0;
    return true;
}

/* Whether code has filled a block, which is freed where it has not: one that says that it wrote more
 * than the block has is not believed. */
static EFI_STATUS check_read(EFI_STATUS status, struct source *to, uint64_t room)
{
    if (status == EFI_SUCCESS && to->length > room)
        status = EFI_NOT_FOUND;
    if (status != EFI_SUCCESS)
        free_machine_block(to->bytes);
    return status;
}

static EFI_STATUS read_whole(EFI_FILE_PROTOCOL *file, struct source *to)
{
    uint64_t end = 0;

    if (file->SetPosition(file, UINT64_MAX) != EFI_SUCCESS ||
        file->GetPosition(file, &end) != EFI_SUCCESS || file->SetPosition(file, 0) != EFI_SUCCESS)
        return EFI_NOT_FOUND;
    to->length = end;
    to->bytes = try_machine_block(end);
    if (to->bytes == NULL)
        return EFI_OUT_OF_RESOURCES;
    return check_read(file->Read(file, &to->length, to->bytes), to, end);
}

static EFI_STATUS from_file_system(const void *path, struct source *to)
{
    uint64_t device = 0, matched = 0;
    CHAR16 name[MAX_NAME_LENGTH];
    EFI_SIMPLE_FILE_SYSTEM_PROTOCOL *volume;
    EFI_FILE_PROTOCOL *root = NULL, *file = NULL;
    EFI_STATUS status;

    if (locate_path(&file_system_guid, path, &device, &matched) != EFI_SUCCESS ||
        !file_name((const uint8_t *)path + matched, name))
        return EFI_NOT_FOUND;
    volume = interface_of(device, &file_system_guid);
    status = volume == NULL ? EFI_NOT_FOUND : volume->OpenVolume(volume, &root);
    if (status != EFI_SUCCESS)
        return status;
    status = root->Open(root, &file, name, EFI_FILE_MODE_READ, 0);
    root->Close(root);
    if (status != EFI_SUCCESS)
        return status;
    status = read_whole(file, to);
    file->Close(file);
    return status;
}

/* The device says first how many bytes it has, and then gives them. */
static EFI_STATUS from_device(const EFI_GUID *guid, const void *path, bool policy,
                              struct source *to)
{
    uint64_t device = 0, matched = 0, room;
    EFI_LOAD_FILE_PROTOCOL *loader;
    EFI_DEVICE_PATH_PROTOCOL *rest;

    to->length = 0;
    if (locate_path(guid, path, &device, &matched) != EFI_SUCCESS)
        return EFI_NOT_FOUND;
    loader = interface_of(device, guid);
    rest = POINTER(NUMBER(path) + matched);
    if (loader == NULL ||
        loader->LoadFile(loader, rest, policy, &to->length, NULL) != EFI_BUFFER_TOO_SMALL)
        return EFI_NOT_FOUND;
    room = to->length;
    to->bytes = try_machine_block(room);
    if (to->bytes == NULL)
        return EFI_OUT_OF_RESOURCES;
    if (!has_interface(device, guid, loader))
        return check_read(EFI_NOT_FOUND, to, room);
    return check_read(loader->LoadFile(loader, rest, policy, &to->length, to->bytes), to, room);
}

/* The bytes of the image at a path. A boot option (with the policy true) is for no LoadFile2. Where
 * a source has no memory for them no other is asked. */
EFI_STATUS read_by_path(const void *path, bool policy, struct source *to)
{
    EFI_STATUS status = from_file_system(path, to);

    if (status != EFI_SUCCESS && status != EFI_OUT_OF_RESOURCES && !policy)
        status = from_device(&load_file2_guid, path, false, to);
    if (status != EFI_SUCCESS && status != EFI_OUT_OF_RESOURCES)
        status = from_device(&load_file_guid, path, policy, to);
    return status == EFI_SUCCESS || status == EFI_OUT_OF_RESOURCES ? status : EFI_NOT_FOUND;
}
