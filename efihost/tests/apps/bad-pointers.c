/* Calls a service with one pointer that is bad, and others that are good: the number of the pointer
 * comes first among the words. */
#include "does.h"

#define BAD 8ULL
#define P(number) (1U << (number))

typedef EFI_STATUS(EFIAPI *SERVICE)(UINTN, UINTN, UINTN, UINTN, UINTN, UINTN);
struct row {
    const char *name;
    UINTN function;
    unsigned pointers;
    UINTN arguments[6];
};

static CHAR16 name[] = {'n', 'a', 'm', 'e', 0};
static UINTN size = 64, other, more;
static uint8_t room[4096], end_of_path[4] = {0x7f, 0xff, 4, 0};
static EFI_GUID guid;

static UINTN number_of(const CHAR16 *at)
{
    UINTN number = 0;

    for (; *at >= '0' && *at <= '9'; at++)
        number = 10 * number + (*at - '0');
    return number;
}

static EFI_STATUS call(const struct row *row, unsigned bad)
{
    UINTN words[6];

    for (unsigned i = 0; i < 6; i++)
        words[i] = i == bad ? BAD : row->arguments[i];
    print(row->name);
    print("\r\n");
    return ((SERVICE)row->function)(words[0], words[1], words[2], words[3], words[4], words[5]);
}

#define ROW(table, service, pointers, ...)                                                        \
    {#service, (UINTN)(table)->service, pointers, {__VA_ARGS__}}
#define AT(variable) (UINTN)&variable
#define GUID AT(guid)

static EFI_STATUS application(void)
{
    EFI_RUNTIME_SERVICES *runtime = table->RuntimeServices;
    EFI_SIMPLE_TEXT_OUTPUT_PROTOCOL *out = table->ConOut;
    UINTN path = (UINTN)end_of_path, to_path = AT(path), buffer = (UINTN)room, image = (UINTN)self;
    const struct row rows[] = {
        ROW(boot, CopyMem, P(0) | P(1), buffer, buffer, 64),
        ROW(boot, SetMem, P(0), buffer, 64, 1),
        ROW(boot, CalculateCrc32, P(0) | P(2), buffer, 64, AT(other)),
        ROW(boot, AllocatePages, P(3), 0, 2, 1, AT(other)),
        ROW(boot, AllocatePool, P(2), 2, 64, AT(other)),
        ROW(boot, GetMemoryMap, P(0) | P(1) | P(2) | P(3) | P(4), AT(more), buffer, AT(other),
            AT(other), AT(other)),
        ROW(boot, CreateEvent, P(4), 0, 0, 0, 0, AT(other)),
        ROW(boot, CreateEventEx, P(4) | P(5), 0, 0, 0, 0, GUID, AT(other)),
        ROW(boot, WaitForEvent, P(1), 1, AT(other), AT(other)),
        ROW(boot, InstallProtocolInterface, P(0) | P(1), AT(other), GUID, 0, 0),
        ROW(boot, ReinstallProtocolInterface, P(1), image, GUID, 0, 0),
        ROW(boot, UninstallProtocolInterface, P(1), image, GUID, 0),
        ROW(boot, HandleProtocol, P(1) | P(2), image, (UINTN)&loaded_guid, AT(other)),
        ROW(boot, RegisterProtocolNotify, P(0) | P(2), GUID, 0, AT(other)),
        ROW(boot, LocateHandle, P(1) | P(3) | P(4), 2, (UINTN)&loaded_guid, 0, AT(size), buffer),
        ROW(boot, LocateDevicePath, P(0) | P(1) | P(2), GUID, to_path, AT(other)),
        ROW(boot, InstallConfigurationTable, P(0), GUID, buffer),
        ROW(boot, LoadImage, P(2) | P(3) | P(5), 0, image, path, buffer, 4096, AT(other)),
        ROW(boot, SetWatchdogTimer, P(3), 10, 0x10000, 8, (UINTN)name),
        ROW(boot, ConnectController, P(1) | P(2), image, 0, 0, 1),
        ROW(boot, OpenProtocol, P(1) | P(2), image, (UINTN)&loaded_guid, AT(other), image, 0, 2),
        ROW(boot, CloseProtocol, P(1), image, GUID, image, 0),
        ROW(boot, OpenProtocolInformation, P(1) | P(2) | P(3), image, (UINTN)&loaded_guid,
            AT(other), AT(other)),
        ROW(boot, ProtocolsPerHandle, P(1) | P(2), image, AT(other), AT(other)),
        ROW(boot, LocateHandleBuffer, P(1) | P(3) | P(4), 2, (UINTN)&loaded_guid, 0, AT(other),
            AT(other)),
        ROW(boot, LocateProtocol, P(0) | P(2), (UINTN)&loaded_guid, 0, AT(other)),
        ROW(boot, InstallMultipleProtocolInterfaces, P(0) | P(1), AT(other), GUID, buffer, 0),
        ROW(boot, UninstallMultipleProtocolInterfaces, P(1), image, GUID, buffer, 0),
        ROW(boot, GetNextMonotonicCount, P(0), AT(other)),
        ROW(runtime, GetTime, P(0) | P(1), buffer, buffer + 64),
        ROW(runtime, SetTime, P(0), buffer),
        ROW(runtime, SetVariable, P(0) | P(1) | P(4), (UINTN)name, GUID, 6, 8, buffer),
        ROW(runtime, GetVariable, P(0) | P(1) | P(2) | P(3) | P(4), (UINTN)name, GUID, AT(other),
            AT(size), buffer),
        ROW(runtime, GetNextVariableName, P(0) | P(1) | P(2), AT(size), buffer, GUID),
        ROW(runtime, QueryVariableInfo, P(1) | P(2) | P(3), 6, AT(other), AT(other), AT(other)),
        ROW(runtime, GetNextHighMonotonicCount, P(0), AT(other)),
        ROW(out, OutputString, P(0) | P(1), (UINTN)out, (UINTN)name),
        ROW(out, TestString, P(1), (UINTN)out, (UINTN)name),
        ROW(out, QueryMode, P(2) | P(3), (UINTN)out, 0, AT(other), AT(other)),
        ROW(table->ConIn, ReadKeyStroke, P(1), (UINTN)table->ConIn, buffer),
    };
    UINTN number = number_of(words());

    more = sizeof room;
    MUST(runtime->SetVariable(name, &guid, 6, 8, room));
    for (UINTN i = 0; i < sizeof rows / sizeof *rows; i++)
        for (unsigned argument = 0; argument < 6; argument++)
            if ((rows[i].pointers & P(argument)) != 0 && number-- == 0)
                return call(&rows[i], argument);
    print("no more\r\n");
    return EFI_SUCCESS;
}
