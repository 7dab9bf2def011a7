/* Does what applications do, and gives back all that it took. */
#include "app.h"

static unsigned notified;

static void EFIAPI notify(EFI_EVENT event, void *context)
{
    (void)event;
    ++*(unsigned *)context;
}

static EFI_STATUS memory(void)
{
    uint8_t *blocks[40], *low;
    uint64_t at = 0, below;

    for (unsigned i = 0; i < 40; i++) {
        blocks[i] = pool(i * 37);
        if (blocks[i] == NULL)
            return EFI_OUT_OF_RESOURCES;
        boot->SetMem(blocks[i], i * 37, (uint8_t)i);
    }
    for (unsigned i = 0; i < 40; i += 2)
        MUST(boot->FreePool(blocks[i]));
    for (unsigned i = 1; i < 40; i += 2) {
        if (blocks[i][i * 37 - 1] != i)
            return EFI_ABORTED;
        MUST(boot->FreePool(blocks[i]));
    }
    MUST(boot->AllocatePages(0, 4, 5, &at));
    below = at + 0xffffff;
    MUST(boot->AllocatePages(1, 2, 3, &below));
    low = (uint8_t *)below;
    low[0] = low[3 * 4096 - 1] = 1;
    boot->SetMem((void *)at, 5 * 4096, 7);
    MUST(boot->FreePages(at + 4096, 2));
    MUST(boot->FreePages(at, 1));
    MUST(boot->FreePages(at + 3 * 4096, 2));
    return boot->FreePages(below, 3);
}

static EFI_STATUS events(void)
{
    EFI_EVENT timer, signal;
    unsigned count = 0;
    UINTN index;
    EFI_TPL before;

    MUST(boot->CreateEvent(EVT_TIMER, 0, NULL, NULL, &timer));
    MUST(boot->CreateEvent(EVT_NOTIFY_SIGNAL, TPL_CALLBACK, notify, &count, &signal));
    MUST(boot->SetTimer(timer, TIMER_RELATIVE, 20000));
    MUST(boot->WaitForEvent(1, &timer, &index));
    before = boot->RaiseTPL(TPL_NOTIFY);
    MUST(boot->SignalEvent(signal));
    if (count != 0)
        return EFI_ABORTED;
    boot->RestoreTPL(before);
    if (count != 1 || boot->CheckEvent(timer) != EFI_NOT_READY)
        return EFI_ABORTED;
    MUST(boot->CloseEvent(timer));
    return boot->CloseEvent(signal);
}

static EFI_STATUS protocols(void)
{
    static const uint8_t path[] = {1, 4, 8, 0, 1, 2, 3, 4, 0x7f, 0xff, 4, 0};
    static const uint8_t below[] = {1, 4, 8, 0, 1, 2, 3, 4, 1, 4, 5, 0, 9, 0x7f, 0xff, 4, 0};
    static uint32_t interface;
    EFI_DEVICE_PATH_PROTOCOL *rest = (EFI_DEVICE_PATH_PROTOCOL *)(uintptr_t)below;
    EFI_OPEN_PROTOCOL_INFORMATION_ENTRY *entries;
    EFI_HANDLE handle = NULL, *handles, there;
    EFI_GUID **guids;
    EFI_EVENT event;
    void *it = NULL, *key;
    UINTN count;

    MUST(boot->CreateEvent(EVT_NOTIFY_SIGNAL, TPL_CALLBACK, notify, &notified, &event));
    MUST(boot->RegisterProtocolNotify(&test_guid, event, &key));
    MUST(boot->InstallMultipleProtocolInterfaces(&handle, &test_guid, &interface, &path_guid, path,
                                                 NULL));
    if (notified != 1)
        return EFI_ABORTED;
    MUST(boot->LocateDevicePath(&test_guid, &rest, &there));
    if (there != handle || (const uint8_t *)rest != below + 8)
        return EFI_ABORTED;
    MUST(boot->HandleProtocol(handle, &path_guid, &it));
    if (it != path)
        return EFI_ABORTED;
    MUST(boot->LocateProtocol(&test_guid, NULL, &it));
    MUST(boot->OpenProtocol(handle, &test_guid, &it, self, handle, 0x10));
    if (it != &interface ||
        boot->OpenProtocol(handle, &test_guid, &it, self, handle, 0x10) != EFI_ALREADY_STARTED ||
        it != &interface)
        return EFI_ABORTED;
    MUST(boot->OpenProtocolInformation(handle, &test_guid, &entries, &count));
    if (count != 1 || entries[0].AgentHandle != self)
        return EFI_ABORTED;
    MUST(boot->FreePool(entries));
    MUST(boot->CloseProtocol(handle, &test_guid, self, handle));
    MUST(boot->LocateHandleBuffer(2, &test_guid, NULL, &count, &handles));
    if (count != 1 || handles[0] != handle)
        return EFI_ABORTED;
    MUST(boot->FreePool(handles));
    MUST(boot->ProtocolsPerHandle(handle, &guids, &count));
    MUST(boot->FreePool(guids));
    MUST(boot->UninstallMultipleProtocolInterfaces(handle, &test_guid, &interface, &path_guid,
                                                   path, NULL));
    return count != 2 ? EFI_ABORTED : boot->CloseEvent(event);
}

static EFI_STATUS small_services(void)
{
    static const CHAR16 name[] = {'t', 'e', 's', 't', 0};
    uint8_t value[4] = {1, 2, 3, 4}, back[4] = {0};
    UINTN size = sizeof back;
    uint32_t sum = 0, attributes = 0;
    EFI_TIME time;

    MUST(boot->CalculateCrc32("123456789", 9, &sum));
    MUST(table->RuntimeServices->SetVariable(name, &test_guid, 7, 4, value));
    MUST(table->RuntimeServices->GetVariable(name, &test_guid, &attributes, &size, back));
    MUST(table->RuntimeServices->GetTime(&time, NULL));
    MUST(boot->InstallConfigurationTable(&test_guid, value));
    MUST(boot->InstallConfigurationTable(&test_guid, NULL));
    MUST(boot->Stall(100));
    return sum == 0xcbf43926 && back[3] == 4 && attributes == 7 && time.Year >= 2020 ? EFI_SUCCESS
                                                                                     : EFI_ABORTED;
}

static EFI_STATUS application(void)
{
    MUST(memory());
    MUST(events());
    MUST(protocols());
    MUST(small_services());
    table->ConOut->SetAttribute(table->ConOut, 0x1f);
    print("all is right\r\n");
    return EFI_SUCCESS;
}
