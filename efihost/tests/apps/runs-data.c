/* Puts code into memory, and calls it there. */
#include "does.h"

typedef uint32_t(EFIAPI *CODE)(void);
static const uint8_t code[] = {0xb8, 7, 0, 0, 0, 0xc3}; /* mov eax, 7; ret */

static EFI_STATUS runs_at(uint8_t *at)
{
    for (UINTN i = 0; i < sizeof code; i++)
        at[i] = code[i];
    if (((CODE)(UINTN)at)() != 7)
        return EFI_ABORTED;
    print("ran\r\n");
    return EFI_SUCCESS;
}

static EFI_STATUS runs_in_pool(uint32_t type)
{
    void *block;
    EFI_STATUS status;

    MUST(boot->AllocatePool(type, 100, &block));
    status = runs_at(block);
    MUST(boot->FreePool(block));
    return status;
}

static EFI_STATUS runs_in_pages(uint32_t type)
{
    uint64_t at;
    EFI_STATUS status;

    MUST(boot->AllocatePages(0, type, 3, &at));
    status = runs_at((uint8_t *)(UINTN)at);
    if (status == EFI_SUCCESS)
        status = runs_at((uint8_t *)(UINTN)at + 8192);
    MUST(boot->FreePages(at, 3));
    return status;
}

static EFI_STATUS in_pool(void)
{
    return runs_in_pool(2);
}

static EFI_STATUS in_pages(void)
{
    return runs_in_pages(4);
}

static EFI_STATUS on_stack(void)
{
    uint8_t room[64];

    return runs_at(room);
}

static EFI_STATUS in_code(void)
{
    for (uint32_t type = 1; type <= 5; type += 2) {
        MUST(runs_in_pool(type));
        MUST(runs_in_pages(type));
    }
    return runs_in_pages(0x80000001);
}

/* Memory that was for code, and is for data. */
static EFI_STATUS in_former_code(void)
{
    uint64_t at;

    MUST(boot->AllocatePages(0, 1, 5, &at));
    MUST(runs_at((uint8_t *)(UINTN)at + 4096));
    MUST(boot->FreePages(at, 5));
    at += 4096;
    MUST(boot->AllocatePages(2, 2, 1, &at));
    MUST(runs_at((uint8_t *)(UINTN)at));
    return boot->FreePages(at, 1);
}

static EFI_STATUS in_freed(void)
{
    uint64_t at;

    MUST(boot->AllocatePages(0, 1, 1, &at));
    for (UINTN i = 0; i < sizeof code; i++)
        ((uint8_t *)(UINTN)at)[i] = code[i];
    MUST(boot->FreePages(at, 1));
    return ((CODE)(UINTN)at)() == 7 ? EFI_SUCCESS : EFI_ABORTED;
}

static EFI_STATUS in_callback(void)
{
    uint8_t *block = pool(64);
    EFI_EVENT event;

    block[0] = 0xc3;
    MUST(boot->CreateEvent(EVT_NOTIFY_SIGNAL, 8, (EFI_EVENT_NOTIFY)(UINTN)block, NULL, &event));
    MUST(boot->SignalEvent(event));
    MUST(boot->CloseEvent(event));
    MUST(boot->FreePool(block));
    print("ran\r\n");
    return EFI_SUCCESS;
}

/* A list that a service makes. */
static EFI_STATUS in_handles(void)
{
    EFI_HANDLE *handles;
    UINTN count;

    MUST(boot->LocateHandleBuffer(0, NULL, NULL, &count, &handles));
    MUST(runs_at((uint8_t *)handles));
    return boot->FreePool(handles);
}

static EFI_STATUS application(void)
{
    static const struct deed deeds[] = {
        {"pool", in_pool},
        {"pages", in_pages},
        {"stack", on_stack},
        {"code", in_code},
        {"former-code", in_former_code},
        {"freed", in_freed},
        {"callback", in_callback},
        {"handles", in_handles},
    };

    return DO_DEED(deeds);
}
