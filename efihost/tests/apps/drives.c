/* A driver and its controller in one: Start opens the controller's protocol by driver and makes a
 * child; an exclusive open, an uninstall and a disconnect stop it. */
#include "app.h"

static const EFI_GUID child_guid = {
    0x7a1c1c52, 0x6dd1, 0x4b6f, {0xa9, 0x3a, 0x37, 0x4f, 0x0a, 0x6e, 0x2b, 0x88}};
static uint32_t interface, child_interface;
static EFI_HANDLE child;
static unsigned starts, stops;

static EFI_STATUS EFIAPI supported(EFI_DRIVER_BINDING_PROTOCOL *this, EFI_HANDLE controller,
                                   EFI_DEVICE_PATH_PROTOCOL *rest)
{
    void *it;
    EFI_STATUS status = boot->OpenProtocol(controller, &test_guid, &it, this->DriverBindingHandle,
                                           controller, 0x10);

    (void)rest;
    if (status == EFI_SUCCESS)
        boot->CloseProtocol(controller, &test_guid, this->DriverBindingHandle, controller);
    return status;
}

static EFI_STATUS EFIAPI start(EFI_DRIVER_BINDING_PROTOCOL *this, EFI_HANDLE controller,
                               EFI_DEVICE_PATH_PROTOCOL *rest)
{
    EFI_HANDLE driver = this->DriverBindingHandle;
    void *it;

    (void)rest;
    MUST(boot->OpenProtocol(controller, &test_guid, &it, driver, controller, 0x10));
    child = NULL;
    MUST(boot->InstallProtocolInterface(&child, &child_guid, 0, &child_interface));
    MUST(boot->OpenProtocol(controller, &test_guid, &it, driver, child, 8));
    starts++;
    return EFI_SUCCESS;
}

static EFI_STATUS EFIAPI stop(EFI_DRIVER_BINDING_PROTOCOL *this, EFI_HANDLE controller,
                              UINTN count, EFI_HANDLE *children)
{
    EFI_HANDLE driver = this->DriverBindingHandle;

    if (count == 0) {
        MUST(boot->CloseProtocol(controller, &test_guid, driver, controller));
        stops++;
        return EFI_SUCCESS;
    }
    MUST(boot->CloseProtocol(controller, &test_guid, driver, children[0]));
    return boot->UninstallProtocolInterface(children[0], &child_guid, &child_interface);
}

static EFI_DRIVER_BINDING_PROTOCOL binding = {supported, start, stop, 10, NULL, NULL};

static EFI_STATUS application(void)
{
    EFI_HANDLE controller = NULL, driver = NULL;
    void *it;

    MUST(boot->InstallProtocolInterface(&controller, &test_guid, 0, &interface));
    MUST(boot->InstallProtocolInterface(&driver, &binding_guid, 0, &binding));
    binding.ImageHandle = self;
    binding.DriverBindingHandle = driver;
    MUST(boot->ConnectController(controller, NULL, NULL, 1));
    MUST(boot->LocateProtocol(&child_guid, NULL, &it));
    if (boot->ConnectController(controller, NULL, NULL, 1) != EFI_NOT_FOUND)
        return EFI_ABORTED;
    MUST(boot->DisconnectController(controller, NULL, NULL));
    MUST(boot->ConnectController(controller, NULL, NULL, 1));
    MUST(boot->OpenProtocol(controller, &test_guid, &it, self, NULL, 0x20));
    MUST(boot->CloseProtocol(controller, &test_guid, self, NULL));
    MUST(boot->ConnectController(controller, NULL, NULL, 1));
    MUST(boot->UninstallProtocolInterface(controller, &test_guid, &interface));
    MUST(boot->UninstallProtocolInterface(driver, &binding_guid, &binding));
    if (starts != 3 || stops != 3 || boot->LocateProtocol(&child_guid, NULL, &it) == EFI_SUCCESS)
        return EFI_ABORTED;
    print("drivers are right\r\n");
    return EFI_SUCCESS;
}
