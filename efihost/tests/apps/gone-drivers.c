/* Drivers and overrides that uninstall themselves while they are called, whose functions are then
 * called no more; and devices that say that they loaded more than they were asked for. */
#include "app.h"

static const EFI_GUID bus_guid = {
    0x3bc1b285, 0x8a15, 0x4a82, {0xaa, 0xbf, 0x4d, 0x7d, 0x13, 0xfb, 0x32, 0x65}};
static const EFI_GUID load_file2_guid = {
    0x4006c0c1, 0xfcb3, 0x403e, {0x99, 0x6d, 0x4a, 0x6c, 0x87, 0x24, 0xe0, 0x6d}};
static const EFI_GUID other_guid = {
    0x7a1c1c52, 0x6dd1, 0x4b6f, {0xa9, 0x3a, 0x37, 0x4f, 0x0a, 0x6e, 0x2b, 0x88}};
static EFI_DRIVER_BINDING_PROTOCOL binding;
static EFI_HANDLE controller, driver, child;
static uint32_t value;

static void go(void)
{
    boot->UninstallProtocolInterface(driver, &binding_guid, &binding);
    binding.Supported = NULL;
    binding.Start = NULL;
    binding.Stop = NULL;
}

static EFI_STATUS EFIAPI supported_and_gone(EFI_DRIVER_BINDING_PROTOCOL *this, EFI_HANDLE handle,
                                            EFI_DEVICE_PATH_PROTOCOL *rest)
{
    (void)this;
    (void)handle;
    (void)rest;
    go();
    return EFI_SUCCESS;
}

static EFI_STATUS EFIAPI supported(EFI_DRIVER_BINDING_PROTOCOL *this, EFI_HANDLE handle,
                                   EFI_DEVICE_PATH_PROTOCOL *rest)
{
    (void)this;
    (void)rest;
    return handle == controller ? EFI_SUCCESS : EFI_UNSUPPORTED;
}

static EFI_STATUS EFIAPI start(EFI_DRIVER_BINDING_PROTOCOL *this, EFI_HANDLE handle,
                               EFI_DEVICE_PATH_PROTOCOL *rest)
{
    void *it;

    (void)this;
    (void)rest;
    child = NULL;
    MUST(boot->OpenProtocol(handle, &test_guid, &it, driver, handle, 0x10));
    MUST(boot->InstallProtocolInterface(&child, &other_guid, 0, &value));
    return boot->OpenProtocol(handle, &test_guid, &it, driver, child, 8);
}

static EFI_STATUS EFIAPI stop_and_go(EFI_DRIVER_BINDING_PROTOCOL *this, EFI_HANDLE handle,
                                     UINTN count, EFI_HANDLE *children)
{
    (void)this;
    if (count != 1 || children[0] != child)
        return EFI_ABORTED;
    boot->CloseProtocol(handle, &test_guid, driver, child);
    boot->UninstallProtocolInterface(child, &other_guid, &value);
    go();
    return EFI_SUCCESS;
}

static EFI_STATUS install(void *is_supported)
{
    binding = (EFI_DRIVER_BINDING_PROTOCOL){is_supported, start, stop_and_go, 1, self, driver};
    return boot->InstallProtocolInterface(&driver, &binding_guid, 0, &binding);
}

static EFI_STATUS drivers(void)
{
    MUST(boot->InstallProtocolInterface(&controller, &test_guid, 0, &value));
    MUST(boot->InstallProtocolInterface(&driver, &other_guid, 0, &value));
    MUST(install((void *)supported_and_gone));
    if (boot->ConnectController(controller, NULL, NULL, 0) != EFI_NOT_FOUND)
        return EFI_ABORTED;
    MUST(install((void *)supported));
    MUST(boot->ConnectController(controller, NULL, NULL, 0));
    if (boot->DisconnectController(controller, NULL, NULL) != EFI_DEVICE_ERROR)
        return EFI_ABORTED;
    MUST(boot->CloseProtocol(controller, &test_guid, driver, controller));
    return boot->UninstallProtocolInterface(driver, &other_guid, &value);
}

/* ---- An override ---- */

static struct bus {
    EFI_STATUS(EFIAPI *GetDriver)(struct bus *, EFI_HANDLE *);
} bus;
static unsigned asked;

static EFI_STATUS EFIAPI get_driver(struct bus *this, EFI_HANDLE *image)
{
    asked++;
    boot->UninstallProtocolInterface(controller, &bus_guid, this);
    this->GetDriver = NULL;
    *image = self;
    return EFI_SUCCESS;
}

static EFI_STATUS overrides(void)
{
    bus.GetDriver = get_driver;
    MUST(boot->InstallProtocolInterface(&controller, &bus_guid, 0, &bus));
    if (boot->ConnectController(controller, NULL, NULL, 0) != EFI_NOT_FOUND || asked != 1)
        return EFI_ABORTED;
    return boot->UninstallProtocolInterface(controller, &test_guid, &value);
}

/* ---- Devices that lie ---- */

static UINTN first_size;

static EFI_STATUS EFIAPI load(EFI_LOAD_FILE_PROTOCOL *this, EFI_DEVICE_PATH_PROTOCOL *rest,
                              BOOLEAN policy, UINTN *size, void *to)
{
    (void)this;
    (void)rest;
    (void)policy;
    *size = to == NULL ? first_size : 1ULL << 40;
    return to == NULL ? EFI_BUFFER_TOO_SMALL : EFI_SUCCESS;
}

static EFI_STATUS EFIAPI open(EFI_FILE_PROTOCOL *this, EFI_FILE_PROTOCOL **made,
                              const CHAR16 *name, uint64_t mode, uint64_t attributes)
{
    (void)name;
    (void)mode;
    (void)attributes;
    *made = this;
    return EFI_SUCCESS;
}

static EFI_STATUS EFIAPI close(EFI_FILE_PROTOCOL *this)
{
    (void)this;
    return EFI_SUCCESS;
}

static EFI_STATUS EFIAPI read(EFI_FILE_PROTOCOL *this, UINTN *size, void *bytes)
{
    (void)this;
    (void)bytes;
    *size = 1ULL << 40;
    return EFI_SUCCESS;
}

static EFI_STATUS EFIAPI get_position(EFI_FILE_PROTOCOL *this, uint64_t *position)
{
    (void)this;
    *position = first_size;
    return EFI_SUCCESS;
}

static EFI_STATUS EFIAPI set_position(EFI_FILE_PROTOCOL *this, uint64_t position)
{
    (void)this;
    (void)position;
    return EFI_SUCCESS;
}

static EFI_FILE_PROTOCOL file;

static EFI_STATUS EFIAPI open_volume(EFI_SIMPLE_FILE_SYSTEM_PROTOCOL *this, EFI_FILE_PROTOCOL **root)
{
    (void)this;
    *root = &file;
    return EFI_SUCCESS;
}

static EFI_STATUS load_from(const EFI_GUID *guid, void *it)
{
    static const uint8_t path[] = {1, 4, 20,   0,    1, 2, 3, 4, 5, 6, 7, 8, 9, 0, 1, 2, 3, 4,
                                   5, 6, 0x7f, 0xff, 4, 0};
    static const UINTN sizes[] = {0, 100, UINT64_MAX, 1ULL << 63};
    EFI_HANDLE device = NULL, image;

    MUST(boot->InstallMultipleProtocolInterfaces(&device, &path_guid, path, guid, it, NULL));
    for (unsigned i = 0; i < sizeof sizes / sizeof *sizes; i++) {
        first_size = sizes[i];
        if (boot->LoadImage(0, self, (EFI_DEVICE_PATH_PROTOCOL *)(uintptr_t)path, NULL, 0,
                            &image) != (i < 2 ? EFI_NOT_FOUND : EFI_OUT_OF_RESOURCES))
            return EFI_ABORTED;
    }
    return boot->UninstallMultipleProtocolInterfaces(device, &path_guid, path, guid, it, NULL);
}

static EFI_STATUS application(void)
{
    static EFI_LOAD_FILE_PROTOCOL loader = {load};
    static EFI_SIMPLE_FILE_SYSTEM_PROTOCOL volume = {0x10000, open_volume};

    file = (EFI_FILE_PROTOCOL){.Open = open,
                               .Close = close,
                               .Read = read,
                               .GetPosition = get_position,
                               .SetPosition = set_position};
    MUST(drivers());
    MUST(overrides());
    MUST(load_from(&load_file2_guid, &loader));
    MUST(load_from(&files_guid, &volume));
    print("drivers are gone\r\n");
    return EFI_SUCCESS;
}
