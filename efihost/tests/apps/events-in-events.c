/* Notification functions that close events, their own among them, and make others: none that is
 * closed is called, and none that is made is taken for another. */
#include "app.h"

static EFI_EVENT own, others[8];
static unsigned calls;

static EFI_STATUS make(EFI_EVENT *event, uint32_t type, EFI_EVENT_NOTIFY notify)
{
    return boot->CreateEvent(type, TPL_CALLBACK, notify, NULL, event);
}

/* Closes its own event, whose place the next one may take, and signals that. */
static void EFIAPI close_own(EFI_EVENT event, void *context)
{
    (void)context;
    calls += event == own;
    boot->CloseEvent(event);
    for (unsigned i = 0; i < 8; i++) {
        boot->CreateEvent(0, TPL_CALLBACK, NULL, NULL, &others[i]);
        boot->SignalEvent(others[i]);
    }
}

static EFI_STATUS close_others(void)
{
    for (unsigned i = 0; i < 8; i++)
        MUST(boot->CloseEvent(others[i]));
    return EFI_SUCCESS;
}

static EFI_STATUS check_and_wait(void)
{
    UINTN index = 7;

    MUST(make(&own, EVT_NOTIFY_WAIT, close_own));
    if (boot->CheckEvent(own) != EFI_INVALID_PARAMETER || calls != 1)
        return EFI_ABORTED;
    MUST(close_others());
    MUST(make(&own, EVT_NOTIFY_WAIT, close_own));
    if (boot->WaitForEvent(1, &own, &index) != EFI_INVALID_PARAMETER || index != 0 || calls != 2)
        return EFI_ABORTED;
    return close_others();
}

/* All are of one group: the first that is called closes all. */
static void EFIAPI close_all(EFI_EVENT event, void *context)
{
    (void)event;
    (void)context;
    calls++;
    for (unsigned i = 0; i < 8; i++)
        boot->CloseEvent(others[i]);
}

static EFI_STATUS signal_all(void)
{
    for (unsigned i = 0; i < 8; i++)
        MUST(boot->CreateEventEx(EVT_NOTIFY_SIGNAL, TPL_CALLBACK, close_all, NULL, &test_guid,
                                 &others[i]));
    calls = 0;
    MUST(boot->SignalEvent(others[3]));
    if (calls != 1)
        return EFI_ABORTED;
    for (unsigned i = 0; i < 8; i++) {
        MUST(make(&others[i], EVT_TIMER | EVT_NOTIFY_SIGNAL, close_all));
        MUST(boot->SetTimer(others[i], TIMER_PERIODIC, 1));
    }
    MUST(boot->Stall(1000));
    return calls == 2 ? EFI_SUCCESS : EFI_ABORTED;
}

/* What is installed is uninstalled before the installation returns. */
static EFI_HANDLE installed;
static void *key;
static uint32_t interface;

static void EFIAPI uninstall(EFI_EVENT event, void *context)
{
    EFI_HANDLE found = NULL;
    UINTN size = sizeof found;

    (void)context;
    if (boot->LocateHandle(1, NULL, key, &size, &found) != EFI_SUCCESS)
        return;
    calls++;
    boot->UninstallProtocolInterface(found, &test_guid, &interface);
    boot->CloseEvent(event);
}

static EFI_STATUS install(void)
{
    EFI_EVENT event;
    void *it;

    MUST(make(&event, EVT_NOTIFY_SIGNAL, uninstall));
    MUST(boot->RegisterProtocolNotify(&test_guid, event, &key));
    calls = 0;
    MUST(boot->InstallProtocolInterface(&installed, &test_guid, 0, &interface));
    if (calls != 1 || boot->LocateProtocol(&test_guid, NULL, &it) != EFI_NOT_FOUND)
        return EFI_ABORTED;
    installed = NULL;
    MUST(boot->InstallProtocolInterface(&installed, &test_guid, 0, &interface));
    if (calls != 1)
        return EFI_ABORTED;
    return boot->UninstallProtocolInterface(installed, &test_guid, &interface);
}

static EFI_STATUS application(void)
{
    MUST(check_and_wait());
    MUST(signal_all());
    MUST(install());
    print("events are right\r\n");
    return EFI_SUCCESS;
}
