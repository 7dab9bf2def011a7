/* Drivers on a tree of controllers: a bus with two children, a driver on each that makes a child of
 * its own, and one on that. Each writes a letter when it starts, a small one when it stops, and how
 * many children it is to stop. What is connected, stopped, refused and connected again is compared
 * with the letters that it takes. */
#include "app.h"

#define MAX_LETTERS 64U

static const EFI_GUID child_guid = {
    0x7a1c1c52, 0x6dd1, 0x4b6f, {0xa9, 0x3a, 0x37, 0x4f, 0x0a, 0x6e, 0x2b, 0x88}};
static const EFI_GUID leaf_guid = {
    0x1f3d7c60, 0x9b0e, 0x4c8e, {0x8f, 0x54, 0x6a, 0x61, 0x0c, 0x3e, 0x90, 0x17}};
static const EFI_GUID platform_guid = {
    0x6b30c738, 0xa391, 0x11d4, {0x9a, 0x3b, 0x00, 0x90, 0x27, 0x3f, 0xc1, 0x4d}};
static const EFI_GUID bus_guid = {
    0x3bc1b285, 0x8a15, 0x4a82, {0xaa, 0xbf, 0x4d, 0x7d, 0x13, 0xfb, 0x32, 0x65}};
static const EFI_GUID family_guid = {
    0xb1ee129e, 0xda36, 0x4181, {0x91, 0xf8, 0x04, 0xa4, 0x92, 0x37, 0x66, 0xa7}};

struct driver {
    EFI_DRIVER_BINDING_PROTOCOL binding;
    char letter;
    const EFI_GUID *needs, *makes;
    unsigned children;
    uint32_t attributes;
    bool refuses;
};

static char letters[MAX_LETTERS + 1];
static unsigned letter_count;
static EFI_DEVICE_PATH_PROTOCOL *path_seen;
static uint32_t value, other_value;
static EFI_HANDLE controller;

static void write_letter(char letter)
{
    if (letter_count < MAX_LETTERS)
        letters[letter_count++] = letter;
}

/* Whether these were written since the last time. */
static bool wrote(const char *text)
{
    unsigned i = 0;

    letters[letter_count] = 0;
    while (text[i] != 0 && text[i] == letters[i])
        i++;
    letter_count = 0;
    return text[i] == letters[i];
}

static EFI_STATUS EFIAPI supported(EFI_DRIVER_BINDING_PROTOCOL *this, EFI_HANDLE handle,
                                   EFI_DEVICE_PATH_PROTOCOL *rest)
{
    const struct driver *driver = (const struct driver *)this;
    EFI_HANDLE agent = this->DriverBindingHandle;
    void *it;
    EFI_STATUS status =
        boot->OpenProtocol(handle, driver->needs, &it, agent, handle, driver->attributes);

    (void)rest;
    if (status == EFI_SUCCESS)
        boot->CloseProtocol(handle, driver->needs, agent, handle);
    return status;
}

static EFI_STATUS EFIAPI start(EFI_DRIVER_BINDING_PROTOCOL *this, EFI_HANDLE handle,
                               EFI_DEVICE_PATH_PROTOCOL *rest)
{
    const struct driver *driver = (const struct driver *)this;
    EFI_HANDLE agent = this->DriverBindingHandle;
    void *it;

    path_seen = rest;
    MUST(boot->OpenProtocol(handle, driver->needs, &it, agent, handle, driver->attributes));
    for (unsigned i = 0; i < driver->children; i++) {
        EFI_HANDLE child = NULL;

        MUST(boot->InstallProtocolInterface(&child, driver->makes, 0, &value));
        MUST(boot->OpenProtocol(handle, driver->needs, &it, agent, child, 8));
    }
    write_letter(driver->letter);
    return EFI_SUCCESS;
}

/* A child that can't go is open as before. */
static EFI_STATUS EFIAPI stop(EFI_DRIVER_BINDING_PROTOCOL *this, EFI_HANDLE handle, UINTN count,
                              EFI_HANDLE *children)
{
    const struct driver *driver = (const struct driver *)this;
    EFI_HANDLE agent = this->DriverBindingHandle;
    void *it;

    if (driver->refuses) {
        write_letter('!');
        return EFI_DEVICE_ERROR;
    }
    if (count == 0) {
        write_letter((char)(driver->letter + 'a' - 'A'));
        return boot->CloseProtocol(handle, driver->needs, agent, handle);
    }
    write_letter((char)('0' + count));
    for (UINTN i = 0; i < count; i++) {
        MUST(boot->CloseProtocol(handle, driver->needs, agent, children[i]));
        if (boot->UninstallProtocolInterface(children[i], driver->makes, &value) != EFI_SUCCESS) {
            MUST(boot->OpenProtocol(handle, driver->needs, &it, agent, children[i], 8));
            return EFI_DEVICE_ERROR;
        }
    }
    return EFI_SUCCESS;
}

enum { BUS, CHILD, LEAF, SECOND, ALONE, DRIVERS };
#define BINDING(version) {supported, start, stop, version, NULL, NULL}
static struct driver drivers[DRIVERS] = {
    {BINDING(16), 'A', &test_guid, &child_guid, 2, 0x10, false},
    {BINDING(16), 'B', &child_guid, &leaf_guid, 1, 0x10, false},
    {BINDING(16), 'C', &leaf_guid, NULL, 0, 0x10, false},
    {BINDING(32), 'D', &test_guid, NULL, 0, 0x10, false},
    {BINDING(64), 'E', &test_guid, NULL, 0, 0x30, false}};

static EFI_STATUS add_driver(unsigned number)
{
    EFI_DRIVER_BINDING_PROTOCOL *binding = &drivers[number].binding;

    binding->DriverBindingHandle = NULL;
    MUST(boot->InstallProtocolInterface(&binding->DriverBindingHandle, &binding_guid, 0, binding));
    binding->ImageHandle = binding->DriverBindingHandle;
    return EFI_SUCCESS;
}

static EFI_STATUS remove_driver(unsigned number)
{
    EFI_DRIVER_BINDING_PROTOCOL *binding = &drivers[number].binding;

    return boot->UninstallProtocolInterface(binding->DriverBindingHandle, &binding_guid, binding);
}

/* Goes on where letters are those that are meant. */
#define WROTE(text)                                                                               \
    do {                                                                                          \
        if (!wrote(text)) {                                                                       \
            print("not " text ": ");                                                              \
            print(letters);                                                                       \
            print("\r\n");                                                                        \
            return EFI_ABORTED;                                                                   \
        }                                                                                         \
    } while (0)
#define RETURNS(call, status) MUST((call) == (status) ? EFI_SUCCESS : EFI_ABORTED)

/* The handle of the bus's child. */
static EFI_HANDLE child_at(unsigned place)
{
    EFI_HANDLE handles[8] = {NULL};
    UINTN size = sizeof handles;

    if (boot->LocateHandle(2, &child_guid, NULL, &size, handles) != EFI_SUCCESS)
        return NULL;
    return handles[place];
}

static EFI_STATUS try_tree(void)
{
    EFI_HANDLE first, second;

    MUST(boot->ConnectController(controller, NULL, NULL, 1));
    WROTE("ABCBC");
    MUST(boot->DisconnectController(controller, NULL, NULL));
    WROTE("21cb1cba");
    MUST(boot->DisconnectController(controller, NULL, NULL));
    MUST(boot->ConnectController(controller, NULL, NULL, 0));
    WROTE("A");
    RETURNS(boot->ConnectController(controller, NULL, NULL, 1), EFI_NOT_FOUND);
    WROTE("BCBC");
    first = child_at(0);
    second = child_at(1);
    RETURNS(boot->DisconnectController(controller, NULL, controller), EFI_NOT_FOUND);
    MUST(boot->DisconnectController(controller, drivers[CHILD].binding.ImageHandle, first));
    WROTE("");
    MUST(boot->DisconnectController(controller, NULL, first));
    WROTE("11cb");
    RETURNS(boot->DisconnectController(controller, NULL, first), EFI_INVALID_PARAMETER);
    MUST(boot->DisconnectController(controller, drivers[BUS].binding.ImageHandle, second));
    WROTE("11cba");
    return EFI_SUCCESS;
}

/* The driver furthest below can't be stopped: all stays, and then all can go. */
static EFI_STATUS try_refusal(void)
{
    void *it;

    MUST(boot->ConnectController(controller, NULL, NULL, 1));
    WROTE("ABCBC");
    drivers[LEAF].refuses = true;
    RETURNS(boot->UninstallProtocolInterface(controller, &test_guid, &value), EFI_ACCESS_DENIED);
    WROTE("21!");
    RETURNS(boot->ReinstallProtocolInterface(controller, &test_guid, &value, &other_value),
            EFI_ACCESS_DENIED);
    WROTE("21!");
    RETURNS(boot->OpenProtocol(controller, &test_guid, &it, self, NULL, 0x20), EFI_ACCESS_DENIED);
    WROTE("21!");
    RETURNS(boot->DisconnectController(controller, NULL, NULL), EFI_DEVICE_ERROR);
    WROTE("21!");
    RETURNS(boot->UninstallMultipleProtocolInterfaces(controller, &test_guid, &value, NULL),
            EFI_INVALID_PARAMETER);
    WROTE("21!");
    drivers[LEAF].refuses = false;
    MUST(boot->ReinstallProtocolInterface(controller, &test_guid, &value, &other_value));
    WROTE("21cb1cbaABCBC");
    MUST(boot->InstallProtocolInterface(&controller, &leaf_guid, 0, &value));
    MUST(boot->ConnectController(controller, NULL, NULL, 0));
    WROTE("C");
    RETURNS(boot->UninstallMultipleProtocolInterfaces(controller, &leaf_guid, &value, &test_guid,
                                                      &value, NULL), EFI_INVALID_PARAMETER);
    WROTE("");
    MUST(boot->UninstallMultipleProtocolInterfaces(controller, &leaf_guid, &value, &test_guid,
                                                   &other_value, NULL));
    WROTE("c21cb1cba");
    return EFI_SUCCESS;
}

static EFI_STATUS EFIAPI platform_driver(void *this, EFI_HANDLE handle, EFI_HANDLE *image)
{
    (void)this;
    if (handle != controller || *image != NULL)
        return EFI_NOT_FOUND;
    *image = drivers[BUS].binding.ImageHandle;
    return EFI_SUCCESS;
}

static EFI_STATUS EFIAPI bus_driver(void *this, EFI_HANDLE *image)
{
    return platform_driver(this, controller, image);
}

static uint32_t EFIAPI family_version(void *this)
{
    (void)this;
    return 1;
}

/* Connects the controller, where these letters are written, and disconnects it. */
static EFI_STATUS try_first(EFI_HANDLE *named, const char *text)
{
    MUST(boot->ConnectController(controller, named, NULL, 0));
    if (!wrote(text)) {
        print(letters);
        print(" comes first\r\n");
        return EFI_ABORTED;
    }
    MUST(boot->DisconnectController(controller, NULL, NULL));
    letter_count = 0;
    return EFI_SUCCESS;
}

/* Which of two drivers comes first: by version, by name, by each override. */
static EFI_STATUS try_order(void)
{
    static void *platform[3] = {platform_driver}, *bus[1] = {bus_driver},
                *family[1] = {family_version};
    EFI_HANDLE agent = drivers[BUS].binding.DriverBindingHandle, named[] = {agent, NULL};

    MUST(try_first(NULL, "D"));
    MUST(try_first(named, "A"));
    MUST(boot->InstallProtocolInterface(&controller, &platform_guid, 0, platform));
    MUST(try_first(NULL, "A"));
    named[0] = drivers[SECOND].binding.DriverBindingHandle;
    MUST(try_first(named, "D"));
    MUST(boot->UninstallProtocolInterface(controller, &platform_guid, platform));
    MUST(boot->InstallProtocolInterface(&controller, &bus_guid, 0, bus));
    MUST(try_first(NULL, "A"));
    MUST(boot->UninstallProtocolInterface(controller, &bus_guid, bus));
    MUST(boot->InstallProtocolInterface(&agent, &family_guid, 0, family));
    MUST(try_first(NULL, "A"));
    MUST(boot->UninstallProtocolInterface(agent, &family_guid, family));
    return try_first(NULL, "D");
}

/* The rest of a path goes to the drivers, and one that is at its end is enough. What a driver has
 * open exclusively is not taken from it. */
static EFI_STATUS try_others(void)
{
    static EFI_DEVICE_PATH_PROTOCOL end = {0x7f, 0xff, {4, 0}};
    EFI_DRIVER_BINDING_PROTOCOL *alone = &drivers[ALONE].binding;
    void *it;

    MUST(boot->ConnectController(controller, NULL, &end, 0));
    WROTE("E");
    if (path_seen != &end)
        return EFI_ABORTED;
    MUST(boot->ConnectController(controller, NULL, &end, 0));
    RETURNS(boot->ConnectController(controller, NULL, NULL, 0), EFI_NOT_FOUND);
    RETURNS(boot->OpenProtocol(controller, &test_guid, &it, self, NULL, 0x20), EFI_ACCESS_DENIED);
    WROTE("");
    RETURNS(boot->DisconnectController(controller, self, NULL), EFI_INVALID_PARAMETER);
    MUST(boot->UninstallProtocolInterface(controller, &test_guid, &value));
    WROTE("e");
    RETURNS(boot->ConnectController(controller, NULL, NULL, 0), EFI_INVALID_PARAMETER);
    return boot->UninstallMultipleProtocolInterfaces(alone->DriverBindingHandle, &binding_guid,
                                                     alone, NULL);
}

static EFI_STATUS application(void)
{
    for (unsigned i = 0; i <= LEAF; i++)
        MUST(add_driver(i));
    MUST(boot->InstallProtocolInterface(&controller, &test_guid, 0, &value));
    MUST(try_tree());
    MUST(try_refusal());
    controller = NULL;
    MUST(boot->InstallProtocolInterface(&controller, &test_guid, 0, &value));
    MUST(add_driver(SECOND));
    MUST(try_order());
    MUST(add_driver(ALONE));
    MUST(try_others());
    for (unsigned i = 0; i <= SECOND; i++)
        MUST(remove_driver(i));
    print("trees are right\r\n");
    return EFI_SUCCESS;
}
