/* Does with files of the first file system what its words say, and prints the status of each:
 *
 * read NAME, make NAME, folder NAME, delete NAME, move NAME NAME, list NAME, and unended NAME, which
 * gives a file a name that has no end. */
#include "words.h"

static const EFI_GUID info_guid = {
    0x09576e92, 0x6d3f, 0x11d2, {0x8e, 0x39, 0x00, 0xa0, 0xc9, 0x69, 0x72, 0x3b}};
static const uint64_t changes = EFI_FILE_MODE_READ | EFI_FILE_MODE_WRITE;
static EFI_FILE_PROTOCOL *root;
static uint8_t about[2000];

static const CHAR16 *wide(const char *text)
{
    static CHAR16 letters[1000];
    unsigned i = 0;

    for (; text[i] != 0 && i < 999; i++)
        letters[i] = (CHAR16)(uint8_t)text[i];
    letters[i] = 0;
    return letters;
}

static EFI_STATUS read_file(const char *name)
{
    EFI_FILE_PROTOCOL *file;
    char text[100];
    UINTN size = sizeof text - 1;
    EFI_STATUS status = root->Open(root, &file, wide(name), EFI_FILE_MODE_READ, 0);

    if (status != EFI_SUCCESS)
        return status;
    status = file->Read(file, &size, text);
    text[status == EFI_SUCCESS ? size : 0] = 0;
    print(text);
    print("\r\n");
    file->Close(file);
    return status;
}

static EFI_STATUS make(const char *name, uint64_t attributes)
{
    EFI_FILE_PROTOCOL *file;
    UINTN size = 4;
    EFI_STATUS status =
        root->Open(root, &file, wide(name), changes | EFI_FILE_MODE_CREATE, attributes);

    if (status != EFI_SUCCESS)
        return status;
    if (attributes == 0)
        status = file->Write(file, &size, "made");
    file->Close(file);
    return status;
}

static EFI_STATUS delete(const char *name)
{
    EFI_FILE_PROTOCOL *file;
    EFI_STATUS status = root->Open(root, &file, wide(name), changes, 0);

    return status == EFI_SUCCESS ? file->Delete(file) : status;
}

/* Sets a file's name. One that is not ended goes up to the end of what is passed. */
static EFI_STATUS move(const char *name, const char *to, bool ended)
{
    EFI_FILE_INFO *info = (EFI_FILE_INFO *)(void *)about;
    UINTN size = sizeof about, letters = 0;
    EFI_FILE_PROTOCOL *file;
    EFI_STATUS status = root->Open(root, &file, wide(name), changes, 0);

    if (status != EFI_SUCCESS)
        return status;
    status = file->GetInfo(file, &info_guid, &size, info);
    while (to[letters] != 0)
        letters++;
    boot->CopyMem(info->FileName, (void *)(uintptr_t)wide(to), 2 * letters + 2);
    if (status == EFI_SUCCESS)
        status = file->SetInfo(file, &info_guid, sizeof *info + 2 * letters + 2 * ended, info);
    file->Close(file);
    return status;
}

static EFI_STATUS list(const char *name)
{
    EFI_FILE_INFO *info = (EFI_FILE_INFO *)(void *)about;
    EFI_FILE_PROTOCOL *folder;
    EFI_STATUS status = root->Open(root, &folder, wide(name), EFI_FILE_MODE_READ, 0);
    UINTN size = sizeof about;

    while (status == EFI_SUCCESS) {
        size = sizeof about;
        status = folder->Read(folder, &size, info);
        if (status != EFI_SUCCESS || size == 0)
            return status;
        table->ConOut->OutputString(table->ConOut, info->FileName);
        print("\r\n");
    }
    return status;
}

static EFI_STATUS application(void)
{
    EFI_SIMPLE_FILE_SYSTEM_PROTOCOL *volume;
    const char *what, *name;

    MUST(boot->LocateProtocol(&files_guid, NULL, (void **)&volume));
    MUST(volume->OpenVolume(volume, &root));
    read_words();
    next_word();
    while ((what = next_word()) != NULL && (name = next_word()) != NULL) {
        EFI_STATUS status = EFI_INVALID_PARAMETER;

        if (is(what, "read"))
            status = read_file(name);
        else if (is(what, "make"))
            status = make(name, 0);
        else if (is(what, "folder"))
            status = make(name, EFI_FILE_DIRECTORY);
        else if (is(what, "delete"))
            status = delete(name);
        else if (is(what, "list"))
            status = list(name);
        else if (is(what, "move"))
            status = move(name, next_word(), true);
        else if (is(what, "unended"))
            status = move(name, "unended", false);
        print_number((int64_t)(status & ~EFI_ERROR_BIT));
    }
    return EFI_SUCCESS;
}
