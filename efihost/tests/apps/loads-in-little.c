/* Fills memory, and frees it again piece by piece: while there is too little of it LoadImage is
 * refused, and all is as it was. So it is with the other services that need memory. */
#include "beside.h"
#include "loader.h"

#define MOST_RUNS 200U
#define MOST_CELLS 2000U
#define MOST_HANDLES 40U
#define STEPS 24U
#define LONG_PATH 4000U

static struct {
    uint64_t at;
    UINTN pages;
} runs[MOST_RUNS];
static void *cells[MOST_CELLS];
static UINTN run_count, cell_count, refused;
static uint8_t before[sizeof map], file[65536], path[LONG_PATH + 8];
static UINTN file_size = sizeof file, size_before, handles_before;

/* ---- What must be as it was ---- */

static EFI_STATUS look(UINTN *size, UINTN *handles)
{
    UINTN key, step;
    uint32_t version;

    *size = sizeof map;
    *handles = 0;
    MUST(boot->GetMemoryMap(size, (EFI_MEMORY_DESCRIPTOR *)(void *)map, &key, &step, &version));
    return boot->LocateHandle(0, NULL, NULL, handles, NULL) == EFI_BUFFER_TOO_SMALL ? EFI_SUCCESS
                                                                                     : EFI_ABORTED;
}

static EFI_STATUS remember(void)
{
    MUST(look(&size_before, &handles_before));
    boot->CopyMem(before, map, size_before);
    return EFI_SUCCESS;
}

static EFI_STATUS is_as_before(void)
{
    UINTN size, handles;

    MUST(look(&size, &handles));
    if (size != size_before || handles != handles_before)
        return EFI_ABORTED;
    for (UINTN i = 0; i < size; i++)
        if (map[i] != before[i])
            return EFI_ABORTED;
    return EFI_SUCCESS;
}

/* Whether a call was refused as it should be. */
static EFI_STATUS is_refused(EFI_STATUS status)
{
    if (status != EFI_OUT_OF_RESOURCES)
        return EFI_ABORTED;
    refused++;
    return is_as_before();
}

/* ---- Memory ---- */

static EFI_STATUS fill(void)
{
    for (UINTN size = 256; size > 0; size /= 2)
        while (run_count < MOST_RUNS &&
               boot->AllocatePages(0, 2, size, &runs[run_count].at) == EFI_SUCCESS)
            runs[run_count++].pages = size;
    while (cell_count < MOST_CELLS && boot->AllocatePool(4, 24, &cells[cell_count]) == EFI_SUCCESS)
        cell_count++;
    return run_count < MOST_RUNS && cell_count < MOST_CELLS ? EFI_SUCCESS : EFI_ABORTED;
}

/* Frees one page more, beside the last. */
static EFI_STATUS free_page(void)
{
    MUST(boot->FreePages(runs[0].at, 1));
    runs[0].at += 4096;
    runs[0].pages--;
    return EFI_SUCCESS;
}

static EFI_STATUS empty(void)
{
    while (cell_count > 0)
        MUST(boot->FreePool(cells[--cell_count]));
    for (; run_count > 0; run_count--)
        MUST(boot->FreePages(runs[run_count - 1].at, runs[run_count - 1].pages));
    return EFI_SUCCESS;
}

/* ---- Loading ---- */

static EFI_STATUS load_bytes(EFI_HANDLE *image)
{
    return boot->LoadImage(0, self, (EFI_DEVICE_PATH_PROTOCOL *)(void *)beside_path, file,
                           file_size, image);
}

static EFI_STATUS load_path(EFI_HANDLE *image)
{
    return load_beside("exits.efi", image);
}

/* Loads with what memory there is; *done, whether there was enough. */
static EFI_STATUS load_once(EFI_STATUS (*load)(EFI_HANDLE *image), bool *done)
{
    EFI_HANDLE image;
    EFI_STATUS status;

    MUST(remember());
    status = load(&image);
    *done = status == EFI_SUCCESS;
    if (!*done)
        return is_refused(status);
    MUST(boot->UnloadImage(image));
    return is_as_before();
}

/* With ever more pages, and with each number of them ever more bytes. */
static EFI_STATUS load_in_little(EFI_STATUS (*load)(EFI_HANDLE *image))
{
    bool done = false, enough = false;
    UINTN full;

    MUST(fill());
    full = cell_count;
    while (!enough) {
        MUST(load_once(load, &done));
        enough = done;
        while (!done && cell_count > 0 && full - cell_count < STEPS) {
            MUST(boot->FreePool(cells[--cell_count]));
            MUST(load_once(load, &done));
        }
        for (; cell_count < full; cell_count++)
            MUST(boot->AllocatePool(4, 24, &cells[cell_count]));
        MUST(free_page());
    }
    return empty();
}

/* ---- The other services ---- */

/* Each path is another one. */
static EFI_STATUS install_path(EFI_HANDLE *handle, uint8_t number)
{
    uint8_t *copy = path;

    path[0] = 4;
    path[1] = 3;
    path[2] = LONG_PATH & 0xff;
    path[3] = LONG_PATH >> 8;
    path[4] = number;
    boot->CopyMem(path + LONG_PATH, "\x7f\xff\x04", 4);
    return boot->InstallMultipleProtocolInterfaces(handle, &test_guid, copy, &path_guid, copy,
                                                   NULL);
}

static EFI_STATUS install_in_little(void)
{
    static EFI_HANDLE handles[MOST_HANDLES];
    UINTN count = 0;
    EFI_STATUS status;

    do {
        MUST(remember());
        status = install_path(&handles[count], (uint8_t)count);
    } while (status == EFI_SUCCESS && ++count < MOST_HANDLES);
    MUST(is_refused(status));
    while (count-- > 0)
        MUST(boot->UninstallMultipleProtocolInterfaces(handles[count], &test_guid, path, &path_guid,
                                                       path, NULL));
    return EFI_SUCCESS;
}

static EFI_STATUS others_in_little(void)
{
    EFI_OPEN_PROTOCOL_INFORMATION_ENTRY *entries;
    EFI_HANDLE image, *handles;
    EFI_GUID **guids;
    UINTN count;

    MUST(load_bytes(&image));
    MUST(fill());
    MUST(install_in_little());
    MUST(remember());
    MUST(is_refused(boot->LocateHandleBuffer(0, NULL, NULL, &count, &handles)));
    MUST(is_refused(boot->ProtocolsPerHandle(self, &guids, &count)));
    MUST(is_refused(boot->OpenProtocolInformation(self, &loaded_guid, &entries, &count)));
    MUST(boot->StartImage(image, NULL, NULL));
    return empty();
}

static EFI_STATUS read_file(void)
{
    static const CHAR16 name[] = {'\\', 'e', 'x', 'i', 't', 's', '.', 'e', 'f', 'i', 0};
    EFI_LOADED_IMAGE_PROTOCOL *loaded;
    EFI_SIMPLE_FILE_SYSTEM_PROTOCOL *volume;
    EFI_FILE_PROTOCOL *root, *it;

    MUST(boot->HandleProtocol(self, &loaded_guid, (void **)&loaded));
    MUST(boot->HandleProtocol(loaded->DeviceHandle, &files_guid, (void **)&volume));
    MUST(volume->OpenVolume(volume, &root));
    MUST(root->Open(root, &it, name, EFI_FILE_MODE_READ, 0));
    MUST(it->Read(it, &file_size, file));
    it->Close(it);
    return root->Close(root);
}

static EFI_STATUS application(void)
{
    EFI_HANDLE image;

    MUST(read_file());
    for (unsigned i = 0; i < 150; i++) { /* until the host has as many closed files as it holds back */
        MUST(load_path(&image));
        MUST(boot->UnloadImage(image));
    }
    MUST(load_in_little(load_bytes));
    MUST(load_in_little(load_path));
    MUST(others_in_little());
    print(refused > 100 ? "refusals are right\r\n" : "too few refusals\r\n");
    return EFI_SUCCESS;
}
