/* Misuses what the firmware made, each time in the way that its argument names; the firmware itself
 * goes on. */
#include "app.h"

static const EFI_GUID graphics_guid = {
    0x9042a9de, 0x23dc, 0x4a38, {0x96, 0xfb, 0x7a, 0xde, 0xd0, 0x80, 0x51, 0x6a}};
static const EFI_GUID serial_guid = {
    0xbb25cf6f, 0xf1d4, 0x11d2, {0x9a, 0x0c, 0x00, 0x90, 0x27, 0x3f, 0xc1, 0xfd}};
static const EFI_GUID disk_guid = {
    0x964e5b21, 0x6459, 0x11d2, {0x8e, 0x39, 0x00, 0xa0, 0xc9, 0x69, 0x72, 0x3b}};
static const CHAR16 file_name[] = {'m', 'i', 's', 'u', 's', 'e', 's', '.', 'e', 'f', 'i', 0};

static EFI_STATUS make_event(EFI_EVENT *event)
{
    return boot->CreateEvent(EVT_TIMER, TPL_CALLBACK, NULL, NULL, event);
}

static EFI_STATUS close_event_twice(void)
{
    EFI_EVENT event, next;

    MUST(make_event(&event));
    MUST(boot->CloseEvent(event));
    MUST(make_event(&next));
    if (boot->CloseEvent(event) != EFI_INVALID_PARAMETER)
        return EFI_ABORTED;
    return boot->CloseEvent(next);
}

static EFI_STATUS use_closed_event(void)
{
    EFI_EVENT event, next;

    MUST(make_event(&event));
    MUST(boot->CloseEvent(event));
    MUST(make_event(&next));
    if (boot->SignalEvent(event) != EFI_INVALID_PARAMETER || boot->CheckEvent(next) == EFI_SUCCESS)
        return EFI_ABORTED;
    return boot->CloseEvent(next);
}

static EFI_STATUS open_root(EFI_FILE_PROTOCOL **root)
{
    EFI_SIMPLE_FILE_SYSTEM_PROTOCOL *volume;

    MUST(boot->LocateProtocol(&files_guid, NULL, (void **)&volume));
    return volume->OpenVolume(volume, root);
}

static EFI_STATUS close_file_twice(void)
{
    EFI_FILE_PROTOCOL *root, *other;

    MUST(open_root(&root));
    MUST(root->Close(root));
    MUST(open_root(&other));
    if (root->Close(root) != EFI_INVALID_PARAMETER)
        return EFI_ABORTED;
    return other->Close(other);
}

static EFI_STATUS use_closed_file(void)
{
    EFI_FILE_PROTOCOL *root, *file, *other;
    uint8_t bytes[8];
    UINTN size = sizeof bytes;

    MUST(open_root(&root));
    MUST(root->Open(root, &file, file_name, EFI_FILE_MODE_READ, 0));
    MUST(file->Close(file));
    MUST(root->Open(root, &other, file_name, EFI_FILE_MODE_READ, 0));
    if (file->Read(file, &size, bytes) != EFI_INVALID_PARAMETER)
        return EFI_ABORTED;
    MUST(other->Close(other));
    return root->Close(root);
}

static EFI_STATUS write_file_function(void)
{
    EFI_FILE_PROTOCOL *root;

    MUST(open_root(&root));
    *(void *volatile *)&root->Flush = NULL;
    return root->Close(root);
}

static EFI_STATUS write_console_function(void)
{
    *(void *volatile *)&table->ConOut->OutputString = NULL;
    return table->ConOut->SetAttribute(table->ConOut, 7);
}

static EFI_STATUS write_console_by_service(void)
{
    boot->SetMem(&table->ConOut->QueryMode, sizeof(void *), 0);
    return table->ConOut->SetAttribute(table->ConOut, 7);
}

static EFI_STATUS write_console_mode(void)
{
    volatile EFI_SIMPLE_TEXT_OUTPUT_MODE *mode = table->ConOut->Mode;

    mode->CursorRow = 100000000;
    mode->CursorColumn = -100000000;
    mode->Attribute = 0x7fffffff;
    print("x");
    return mode->CursorRow == 0 && mode->CursorColumn == 1 && mode->Attribute == 7 ? EFI_SUCCESS
                                                                                 : EFI_ABORTED;
}

static EFI_STATUS write_picture_mode(void)
{
    EFI_GRAPHICS_OUTPUT_PROTOCOL *it;
    uint32_t pixel = 0xff;

    MUST(boot->LocateProtocol(&graphics_guid, NULL, (void **)&it));
    *(volatile uint32_t *)&it->Mode->Info->HorizontalResolution = 0x7fffffff;
    *(volatile uint32_t *)&it->Mode->Info->PixelsPerScanLine = 0x7fffffff;
    *(volatile uint32_t *)&it->Mode->Info->VerticalResolution = 0x7fffffff;
    MUST(it->Blt(it, &pixel, BLT_VIDEO_FILL, 0, 0, 0, 0, 800, 600, 0));
    return it->Blt(it, &pixel, BLT_VIDEO_FILL, 0, 0, 10000, 10000, 1, 1, 0) == EFI_INVALID_PARAMETER
               ? EFI_SUCCESS
               : EFI_ABORTED;
}

static EFI_STATUS write_serial_mode(void)
{
    EFI_SERIAL_IO_PROTOCOL *port;

    MUST(boot->LocateProtocol(&serial_guid, NULL, (void **)&port));
    *(volatile uint64_t *)&port->Mode->BaudRate = 1;
    MUST(port->SetAttributes(port, 9600, 1, 1, 1, 8, 1));
    return *(volatile uint64_t *)&port->Mode->BaudRate == 9600 ? EFI_SUCCESS : EFI_ABORTED;
}

static EFI_STATUS write_disk_media(void)
{
    static uint8_t sector[512];
    EFI_BLOCK_IO_PROTOCOL *disk;

    MUST(boot->LocateProtocol(&disk_guid, NULL, (void **)&disk));
    *(volatile uint64_t *)&disk->Media->LastBlock = UINT64_MAX;
    return disk->ReadBlocks(disk, 1, 100000, sizeof sector, sector) == EFI_INVALID_PARAMETER
               ? EFI_SUCCESS
               : EFI_ABORTED;
}

static EFI_STATUS write_guid(void)
{
    EFI_GUID **guids;
    UINTN count;

    MUST(boot->ProtocolsPerHandle(self, &guids, &count));
    *(volatile uint32_t *)&guids[0]->first = 0;
    MUST(boot->FreePool(guids));
    MUST(boot->ProtocolsPerHandle(self, &guids, &count));
    return boot->FreePool(guids);
}

static EFI_STATUS write_key_path(void)
{
    EFI_DEVICE_PATH_PROTOCOL *path;

    MUST(boot->HandleProtocol(table->ConsoleInHandle, &path_guid, (void **)&path));
    *(volatile uint8_t *)&path->Length[1] = 0xff;
    return EFI_SUCCESS;
}

/* Right by the standard: these tables may be written. The firmware goes by its own. */
static EFI_STATUS write_tables(void)
{
    static const EFI_GUID other = {1, 2, 3, {4}};
    static uint32_t value;

    MUST(boot->InstallConfigurationTable(&test_guid, &value));
    table->NumberOfTableEntries = 1ULL << 60;
    table->ConfigurationTable = NULL;
    table->Hdr.HeaderSize = 0x7fffffff;
    MUST(boot->InstallConfigurationTable(&other, &value));
    if (table->NumberOfTableEntries != 2 || table->ConfigurationTable[1].VendorTable != &value)
        return EFI_ABORTED;
    MUST(boot->InstallConfigurationTable(&test_guid, NULL));
    return table->NumberOfTableEntries == 1 ? EFI_SUCCESS : EFI_ABORTED;
}

static const struct {
    const char *name;
    EFI_STATUS (*misuse)(void);
} misuses[] = {
    {"close-event-twice", close_event_twice},
    {"use-closed-event", use_closed_event},
    {"close-file-twice", close_file_twice},
    {"use-closed-file", use_closed_file},
    {"write-file-function", write_file_function},
    {"write-console-function", write_console_function},
    {"write-console-by-service", write_console_by_service},
    {"write-console-mode", write_console_mode},
    {"write-picture-mode", write_picture_mode},
    {"write-serial-mode", write_serial_mode},
    {"write-disk-media", write_disk_media},
    {"write-guid", write_guid},
    {"write-key-path", write_key_path},
    {"write-tables", write_tables},
};

/* Whether the load options, the image's name and its argument, end with a word. */
static bool is_asked(const EFI_LOADED_IMAGE_PROTOCOL *loaded, const char *word)
{
    const CHAR16 *options = loaded->LoadOptions;
    UINTN at = 0, i = 0;

    while (options[at] != 0 && options[at] != ' ')
        at++;
    while (word[i] != 0 && options[at + 1 + i] == (CHAR16)word[i])
        i++;
    return word[i] == 0 && options[at + 1 + i] == 0;
}

static EFI_STATUS application(void)
{
    EFI_LOADED_IMAGE_PROTOCOL *loaded;

    MUST(boot->HandleProtocol(self, &loaded_guid, (void **)&loaded));
    for (unsigned i = 0; i < sizeof misuses / sizeof misuses[0]; i++)
        if (is_asked(loaded, misuses[i].name))
            return misuses[i].misuse();
    return EFI_NOT_FOUND;
}
