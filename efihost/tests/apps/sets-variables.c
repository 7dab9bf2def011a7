/* What SetVariable refuses leaves all as it was; the room that QueryVariableInfo reports is the room
 * that there is. */
#include "app.h"

#define KEPT 7U /* non-volatile, for both times */
#define VOLATILE 2U
#define APPEND 0x40U
#define ANSWERS(call, status)                                                                     \
    do {                                                                                          \
        if ((call) != (status)) {                                                                 \
            print("not so: " #call " is " #status "\r\n");                                        \
            return EFI_ABORTED;                                                                   \
        }                                                                                         \
    } while (0)

static uint8_t bytes[70000], got[70000];
static const CHAR16 one[] = {'O', 'n', 'e', 0}, none[] = {'N', 'o', 'n', 'e', 0};

static EFI_STATUS set(const CHAR16 *name, uint32_t attributes, UINTN size)
{
    return table->RuntimeServices->SetVariable(name, &test_guid, attributes, size, bytes);
}

/* The status of a GetVariable; a value of another size or of other bytes is ABORTED. */
static EFI_STATUS get(const CHAR16 *name, UINTN size)
{
    UINTN there = sizeof got;
    EFI_STATUS status =
        table->RuntimeServices->GetVariable(name, &test_guid, NULL, &there, got);

    if (status != EFI_SUCCESS)
        return status;
    for (UINTN i = 0; i < there; i++)
        if (got[i] != bytes[i])
            return EFI_ABORTED;
    return there == size ? EFI_SUCCESS : EFI_ABORTED;
}

static EFI_STATUS refusals(void)
{
    ANSWERS(set(none, KEPT, 65537), EFI_OUT_OF_RESOURCES);
    ANSWERS(get(none, 0), EFI_NOT_FOUND);
    ANSWERS(set(none, VOLATILE, 3), EFI_SUCCESS);
    ANSWERS(set(none, VOLATILE, 0), EFI_SUCCESS);
    ANSWERS(set(one, KEPT, 40000), EFI_SUCCESS);
    ANSWERS(set(one, KEPT, 65537), EFI_OUT_OF_RESOURCES);
    ANSWERS(set(one, KEPT, 1ULL << 63), EFI_OUT_OF_RESOURCES);
    ANSWERS(set(one, KEPT | APPEND, 40000), EFI_OUT_OF_RESOURCES);
    ANSWERS(set(one, KEPT | APPEND, ~0ULL), EFI_OUT_OF_RESOURCES);
    ANSWERS(set(one, 3, 5), EFI_INVALID_PARAMETER);
    ANSWERS(set(one, 3, 0), EFI_INVALID_PARAMETER);
    ANSWERS(set(one, 4, 5), EFI_INVALID_PARAMETER);
    ANSWERS(set(one, 0x27, 5), EFI_INVALID_PARAMETER);
    ANSWERS(set(one, 0xf, 5), EFI_INVALID_PARAMETER);
    ANSWERS(set(one, 0x17, 5), EFI_UNSUPPORTED);
    ANSWERS(get(one, 40000), EFI_SUCCESS);
    return EFI_SUCCESS;
}

static EFI_STATUS changes(void)
{
    EFI_RUNTIME_SERVICES *runtime = table->RuntimeServices;

    ANSWERS(set(one, KEPT | APPEND, 0), EFI_SUCCESS);
    ANSWERS(get(one, 40000), EFI_SUCCESS);
    ANSWERS(runtime->SetVariable(one, &test_guid, KEPT | APPEND, 25536, bytes + 40000),
            EFI_SUCCESS);
    ANSWERS(get(one, 65536), EFI_SUCCESS);
    ANSWERS(set(one, KEPT, 3), EFI_SUCCESS);
    ANSWERS(get(one, 3), EFI_SUCCESS);
    ANSWERS(set(one, 0, 3), EFI_SUCCESS);
    ANSWERS(get(one, 3), EFI_NOT_FOUND);
    ANSWERS(set(one, KEPT, 0), EFI_NOT_FOUND);
    ANSWERS(set(one, KEPT | APPEND, 0), EFI_SUCCESS);
    ANSWERS(get(one, 0), EFI_NOT_FOUND);
    ANSWERS(set(one, KEPT | APPEND, 2), EFI_SUCCESS);
    ANSWERS(get(one, 2), EFI_SUCCESS);
    ANSWERS(set(one, KEPT, 0), EFI_SUCCESS);
    return EFI_SUCCESS;
}

static EFI_STATUS names(void)
{
    EFI_RUNTIME_SERVICES *runtime = table->RuntimeServices;
    CHAR16 name[8] = {0};
    UINTN size = 2;
    EFI_GUID guid = test_guid;

    ANSWERS(set(one, KEPT, 2), EFI_SUCCESS);
    ANSWERS(runtime->GetNextVariableName(&size, name, &guid), EFI_BUFFER_TOO_SMALL);
    ANSWERS(size, 8);
    ANSWERS(runtime->GetNextVariableName(&size, name, &guid), EFI_SUCCESS);
    ANSWERS(name[2], 'e');
    size = 6;
    ANSWERS(runtime->GetNextVariableName(&size, name, &guid), EFI_INVALID_PARAMETER);
    size = 8;
    ANSWERS(runtime->GetNextVariableName(&size, name, &guid), EFI_NOT_FOUND);
    ANSWERS(set(one, KEPT, 0), EFI_SUCCESS);
    return EFI_SUCCESS;
}

static EFI_STATUS rooms(uint32_t attributes)
{
    EFI_RUNTIME_SERVICES *runtime = table->RuntimeServices;
    uint64_t most, left, largest, count = 0;
    CHAR16 name[] = {'V', 0, 0};

    ANSWERS(runtime->QueryVariableInfo(4, &most, &left, &largest), EFI_INVALID_PARAMETER);
    ANSWERS(runtime->QueryVariableInfo(attributes, &most, &left, &largest), EFI_SUCCESS);
    ANSWERS(most == left && largest < left, 1);
    for (;; count++) {
        EFI_STATUS status;

        MUST(runtime->QueryVariableInfo(attributes, &most, &left, &largest));
        name[1] = (CHAR16)('A' + count);
        status = set(name, attributes, 65536);
        if (status == EFI_OUT_OF_RESOURCES && left < 65536 + 100)
            break;
        ANSWERS(status, EFI_SUCCESS);
        ANSWERS(largest, 65536);
    }
    ANSWERS(count < most / 65536 + 1 && count > 10, 1);
    ANSWERS(get(name, 0), EFI_NOT_FOUND);
    for (name[1] = 'A'; name[1] < 'A' + count; name[1]++)
        ANSWERS(set(name, attributes, 0), EFI_SUCCESS);
    MUST(runtime->QueryVariableInfo(attributes, &most, &left, &largest));
    ANSWERS(most == left, 1);
    return EFI_SUCCESS;
}

static EFI_STATUS application(void)
{
    for (unsigned i = 0; i < sizeof bytes; i++)
        bytes[i] = (uint8_t)(i % 251);
    MUST(refusals());
    MUST(changes());
    MUST(names());
    MUST(rooms(KEPT));
    MUST(rooms(VOLATILE));
    print("variables are right\r\n");
    return EFI_SUCCESS;
}
