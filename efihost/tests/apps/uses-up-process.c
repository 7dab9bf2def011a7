/* Makes events until the process has no memory for more, and then asks for a variable. */
#include "app.h"

#define MOST (1ULL << 20)

static EFI_EVENT *events;
static uint8_t value[60000];

static EFI_STATUS application(void)
{
    static const CHAR16 name[] = {'n', 0};
    UINTN count = 0;
    EFI_STATUS status;
    uint64_t at;

    MUST(boot->AllocatePages(0, 2, MOST * sizeof *events / 4096, &at));
    events = (EFI_EVENT *)(UINTN)at;
    do
        status = boot->CreateEvent(0, 0, NULL, NULL, &events[count]);
    while (status == EFI_SUCCESS && ++count < MOST);
    if (status != EFI_OUT_OF_RESOURCES)
        return EFI_ABORTED;
    if (table->RuntimeServices->SetVariable(name, &test_guid, 6, sizeof value, value) !=
        EFI_OUT_OF_RESOURCES)
        return EFI_ABORTED;
    while (count > 0)
        MUST(boot->CloseEvent(events[--count]));
    MUST(table->RuntimeServices->SetVariable(name, &test_guid, 6, sizeof value, value));
    print("the process is right\r\n");
    return EFI_SUCCESS;
}
